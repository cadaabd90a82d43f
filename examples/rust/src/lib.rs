//! lcrvm.h for Rust. A transaction that is dropped without a commit, by a panic also, is aborted; it cannot outlive its
//! store. A store that is dropped is closed; `close` says what fails then.
use std::ffi::{c_char, c_int, c_void, CStr, CString};
use std::{fmt, marker::PhantomData, mem::{size_of, ManuallyDrop}, ptr};

#[derive(Clone, Copy, Debug)]
pub struct Geometry { pub nodes: u32, pub threads: u32, pub segments: u32, pub pages: u32, pub words: u32 }
#[repr(C)] struct Options { size: u32, geometry: *const [u32; 6], threads: u32, milliseconds: u32 }
#[repr(C)] struct Fault { size: u32, status: c_int, error: c_int, has_area: bool, fields: [u64; 7], text: [u8; 256] }
type Handle = *mut c_void;
#[link(name = "lcrvm")]
extern "C" {
    fn lcrvm_create(folder: *const c_char, options: *const Options, fault: *mut Fault) -> c_int;
    fn lcrvm_open(folder: *const c_char, options: *const Options, store: *mut Handle, fault: *mut Fault) -> c_int;
    fn lcrvm_close(store: Handle, fault: *mut Fault) -> c_int;
    fn lcrvm_copy(store: Handle, folder: *const c_char, geometry: *const u32) -> c_int;
    fn lcrvm_begin(store: Handle, node: u32, thread: *mut u32, writing: *const u32, writing_count: usize,
        reading: *const u32, reading_count: usize, milliseconds: u32) -> c_int;
    fn lcrvm_put(store: Handle, node: u32, thread: u32, segment: u32, at: u32, bytes: *const u8, length: u32) -> c_int;
    fn lcrvm_read(store: Handle, node: u32, thread: u32, segment: u32, at: u32, bytes: *mut u8, length: u32) -> c_int;
    fn lcrvm_commit(store: Handle, node: u32, thread: *mut u32, flush: bool, commit: *mut [u64; 2]) -> c_int;
    fn lcrvm_abort(store: Handle, node: u32, thread: *mut u32) -> c_int;
    fn lcrvm_flush(store: Handle, node: u32, records: *mut u64) -> c_int;
    fn lcrvm_fault_of(store: Handle) -> *const Fault;
    fn lcrvm_status_text(status: c_int) -> *const c_char;
}
#[derive(Clone, Debug, PartialEq, Eq)] // the status of lcrvm.h, and its words, with the file that failed
pub struct Error { pub status: i32, pub text: String }
impl fmt::Display for Error { fn fmt(&self, to: &mut fmt::Formatter) -> fmt::Result { to.write_str(&self.text) } }
impl std::error::Error for Error {}
pub type Result<T = ()> = std::result::Result<T, Error>;

fn check(status: c_int) -> Result {
    if status == 0 { return Ok(()) }
    let (words, fault) = unsafe { (CStr::from_ptr(lcrvm_status_text(status)), &*lcrvm_fault_of(ptr::null_mut())) };
    let text = [words.to_bytes(), fault.text.split(|byte| *byte == 0).next().unwrap_or_default()].join(&b": "[..]);
    Err(Error { status, text: String::from_utf8_lossy(&text).trim_end_matches(": ").into() })
}
fn name(of: &str) -> Result<CString> {
    CString::new(of).map_err(|it| Error { status: 24, text: it.to_string() })
}
/// Makes a store of zeros in a folder; of no geometry, one as lcrvm.h says.
pub fn create(folder: &str, geometry: Option<&Geometry>) -> Result {
    let size = geometry.map(|it| [24, it.nodes, it.threads, it.segments, it.pages, it.words]);
    let geometry = size.as_ref().map_or(ptr::null(), |it| it);
    let options = Options { size: size_of::<Options>() as u32, geometry, threads: 0, milliseconds: 0 };
    check(unsafe { lcrvm_create(name(folder)?.as_ptr(), &options, ptr::null_mut()) })
}
pub struct Store { at: Handle }
unsafe impl Send for Store {} // each call may come from any thread
unsafe impl Sync for Store {}
impl Store {
    pub fn open(folder: &str) -> Result<Store> {
        let mut at = ptr::null_mut();
        check(unsafe { lcrvm_open(name(folder)?.as_ptr(), ptr::null(), &mut at, ptr::null_mut()) })?;
        Ok(Store { at })
    }
    pub fn begin(&self, writing: &[u32], reading: &[u32], ms: u32) -> Result<Transaction<'_>> {
        let (mut thread, w, r) = (0, writing, reading);
        check(unsafe { lcrvm_begin(self.at, 0, &mut thread, w.as_ptr(), w.len(), r.as_ptr(), r.len(), ms) })?;
        Ok(Transaction { store: self, thread, of_its_thread: PhantomData })
    }
    pub fn flush(&self) -> Result { check(unsafe { lcrvm_flush(self.at, 0, ptr::null_mut()) }) }
    pub fn copy(&self, to: &str) -> Result { check(unsafe { lcrvm_copy(self.at, name(to)?.as_ptr(), ptr::null()) }) }
    pub fn close(self) -> Result { check(unsafe { lcrvm_close(ManuallyDrop::new(self).at, ptr::null_mut()) }) }
}
impl Drop for Store { fn drop(&mut self) { unsafe { lcrvm_close(self.at, ptr::null_mut()) }; } }
pub struct Transaction<'a> { store: &'a Store, thread: u32, of_its_thread: PhantomData<*const ()> }
impl Transaction<'_> {
    pub fn write(&mut self, segment: u32, offset: u32, bytes: &[u8]) -> Result {
        let length = u32::try_from(bytes.len()).unwrap_or(u32::MAX); // no segment is as long
        check(unsafe { lcrvm_put(self.store.at, 0, self.thread, segment, offset, bytes.as_ptr(), length) })
    }
    pub fn read(&self, segment: u32, offset: u32, bytes: &mut [u8]) -> Result {
        let length = u32::try_from(bytes.len()).unwrap_or(u32::MAX);
        check(unsafe { lcrvm_read(self.store.at, 0, self.thread, segment, offset, bytes.as_mut_ptr(), length) })
    }
    pub fn commit(mut self, durable: bool) -> Result {
        check(unsafe { lcrvm_commit(self.store.at, 0, &mut self.thread, durable, ptr::null_mut()) })
    }
}
impl Drop for Transaction<'_> { fn drop(&mut self) { unsafe { lcrvm_abort(self.store.at, 0, &mut self.thread) }; } }
