#!/bin/sh
# Builds and runs the wrappers over the library as it is installed: lcrvm.hpp with examples/bank.cpp, and the
# crate examples/rust with its bank. A bank has eight threads on one store, and an exception or a panic gives some
# transfers up. Its sums have to be right, also after the store is opened again. What a bank does not come to is tried
# by small programs: a store that is moved from, closed, or left while a transaction is open, and what errors say.
#
# usage: tests/wrappers.sh [PROGRAM [LIBRARY [HEAP]]]
#   PROGRAM   default: crates/lcrvm/out/lcrvm
#   LIBRARY   default: crates/lc_c/out/liblc_c.a, which `rt lib` makes in crates/lc_c
#   HEAP      what a library of Rattle has its memory from; default: c/liblibc_c.a of the kit
#
# `make` and a C compiler `cc` are wanted. Without `g++`, or without `cargo`, that wrapper is named, as skipped. It
# takes half a minute, and works in a folder of its own below TMPDIR.
set -eu
. "$(dirname "$0")/common.sh"

program=$(whole "${1:-$top/crates/lcrvm/out/lcrvm}")
library=$(whole "${2:-$top/crates/lc_c/out/liblc_c.a}")
heap=$(whole "${3:-$(heap_of_kit)}")
bound=120

make_work
unset PREFIX BINDIR LIBDIR INCLUDEDIR MANDIR DOCDIR COMPLETIONDIR DESTDIR MAKEFLAGS MAKELEVEL CFLAGS CPPFLAGS LDFLAGS

attempt() {
    name=$1
    shift
    if timeout -k 5 $bound "$@" > "$work/said" 2>&1; then
        passes
    else
        fails "$name"
        tail -n 20 "$work/said"
    fi
}
is_there() {
    command -v "$1" > "$work/said" && return
    echo "skipped: $2: no $1"
    return 1
}

mkdir "$work/top"
(cd "$top" && cp -r Makefile packaging clients include man completion examples LICENSE-* "$work/top")
cd "$work/top"
make -s install PROGRAM="$program" STORE="$library" HEAP="$heap" PREFIX="$work/prefix" > "$work/said"
lib=$work/prefix/lib
export LD_LIBRARY_PATH="$lib"

# ---- C++

cat > "$work/edges.cpp" <<'END'
#include "lcrvm.hpp"
#include <cstdlib>
#include <iostream>
#include <optional>

template <class Call> void refuses(const char *what, lcrvm_status wanted, const char *text, Call call) {
    lcrvm_status found = LCRVM_OK;
    std::string said;
    try { call(); } catch (const lcrvm::error &error) { found = error.status(); said = error.what(); }
    if (found == wanted && said.find(text) != said.npos) return;
    std::cerr << what << ": " << found << " (" << said << "), and not " << wanted << " with '" << text << "'\n";
    std::exit(1);
}
static void holds(const char *what, int64_t found, int64_t wanted) {
    if (found == wanted) return;
    std::cerr << what << ": " << found << ", and not " << wanted << '\n';
    std::exit(1);
}
static int64_t shown(const lcrvm::store &store) { return lcrvm::transaction(store, {}, {1}).get<int64_t>(1, 0); }
static void put(const lcrvm::store &store, int64_t number, bool durable = true) {
    lcrvm::transaction t(store, {1});
    t.put(1, 0, number);
    t.commit(durable);
}

int main(int, char **words) {
    std::string folder = words[1], beside = folder + ".copy";
    refuses("no store", LCRVM_NO_STORE, "/none: No such file", [&] { lcrvm::store store(folder + "/none"); });
    lcrvm_geometry size{sizeof size, 1, 2, 2, 2, 256};
    lcrvm::store::create(folder, &size);
    refuses("a store that is there", LCRVM_EXISTS, "lcrvm.store", [&] { lcrvm::store::create(folder, &size); });

    std::optional<lcrvm::store> store(folder);
    refuses("a store in use", LCRVM_STORE_IN_USE, ": ", [&] { lcrvm::store again(folder); });
    put(*store, 7);
    refuses("past the segment", LCRVM_OUT_OF_SEGMENT, "", [&] { lcrvm::transaction(*store, {1}).put(1, 512, 1); });
    refuses("without a lock", LCRVM_NOT_LOCKED, "", [&] { lcrvm::transaction(*store, {1}).put(2, 0, 1); });
    refuses("a lock of the same thread", LCRVM_BUSY, "", [&] {
        lcrvm::transaction one(*store, {1}), other(*store, {1});
    });

    try {
        lcrvm::transaction t(*store, {1});
        t.put(1, 0, int64_t{8});
        throw 8;
    } catch (int) {
    }
    holds("after an exception", shown(*store), 7);
    {
        lcrvm::transaction t(*store, {1});
        t.put(1, 0, int64_t{9});
        t.commit();
        refuses("a commit that is over", LCRVM_UNKNOWN, "", [&] { t.commit(); });
    }
    holds("after a commit", shown(*store), 9);

    lcrvm::store moved = std::move(*store);
    refuses("a store that was moved from", LCRVM_MISUSE, "", [&] { lcrvm::transaction t(*store, {1}); });
    refuses("its flush", LCRVM_MISUSE, "", [&] { store->flush(); });
    store->close();
    store.reset();
    holds("the store that it was moved to", shown(moved), 9);
    moved.copy(beside);
    put(moved, 10, false);
    moved.close();
    moved.close();
    refuses("a store that is closed", LCRVM_MISUSE, "", [&] { moved.flush(); });

    // A transaction that is moved from is none; one that is moved to, or assigned over, ends where it goes.
    store.emplace(folder);
    {
        const uint32_t both[] = {1, 2};
        lcrvm::transaction one(*store, both, 1, both + 1, 1);
        one.put(1, 0, int64_t{20});
        lcrvm::transaction other(std::move(one));
        refuses("a transaction that was moved from", LCRVM_MISUSE, "", [&] { one.commit(); });
        lcrvm::transaction third(*store, {}, {2});
        swap(other, third);
        third.commit();
        other = std::move(third);
        refuses("a transaction that is over", LCRVM_UNKNOWN, "", [&] { other.commit(); });
        lcrvm::transaction again(*store, both, 2, nullptr, 0);
        again.put(1, 0, int64_t{21});
        again.abort();
        again.abort();
    }
    holds("what was moved", shown(*store), 20);

    // What is changed in place is there once it is committed, and as before after an abort.
    for (bool commits : {true, false}) {
        lcrvm::transaction t(*store, {1}, {2});
        *static_cast<int64_t *>(t.change(1, 0, 8)) += 2;
        holds("bytes in place", *static_cast<const int64_t *>(t.bytes(1)), commits ? 22 : 24);
        refuses("a change of what is only read", LCRVM_READ_ONLY, "", [&] { t.change(2, 0, 8); });
        refuses("bytes of no segment", LCRVM_UNKNOWN, "segment 3: the store has 1 to 2", [&] { t.bytes(3); });
        if (commits)
            t.commit();
    }
    holds("what was changed in place", shown(*store), 22);
    put(*store, 10, false);
    store.reset();

    // A transaction keeps its store open; and one that is open when its store is closed is aborted then.
    store.emplace(folder);
    holds("a lazy commit, after close", shown(*store), 10);
    {
        lcrvm::transaction t(*store, {1});
        store.reset();
        t.put(1, 0, int64_t{11});
        t.commit();
    }
    store.emplace(folder);
    holds("a transaction longer than its store", shown(*store), 11);
    {
        lcrvm::transaction t(*store, {1});
        t.put(1, 0, int64_t{12});
        store->close();
        refuses("a transaction whose store is closed", LCRVM_MISUSE, "", [&] { t.commit(); });
    }
    holds("after that", shown(lcrvm::store(folder)), 11);
    holds("the copy", shown(lcrvm::store(beside)), 9);
}
END
if is_there g++ 'the wrapper for C++'; then
    for compiler in g++ clang++; do
        is_there $compiler "the wrapper for C++ by $compiler" || continue
        for source in examples/bank "$work/edges"; do
            attempt "$source, by $compiler" $compiler -std=c++17 -Wall -Wextra -Wpedantic -Wshadow -Werror -O2 -pthread \
                -I"$work/prefix/include" "$source.cpp" -L"$lib" -llcrvm -o "$work/$(basename $source)"
        done
        rm -rf "$work/accounts" "$work/store" "$work/store.copy"
        attempt "the bank, by $compiler" "$work/bank" "$work/accounts"
        attempt "the edges, by $compiler" "$work/edges" "$work/store"
    done
fi

# ---- Rust

if is_there cargo 'the wrapper for Rust'; then
    export CARGO_TARGET_DIR="$work/target" LCRVM_LIBDIR="$lib"
    cp -r examples/rust "$work/rust"
    mkdir "$work/rust/tests"
    cat > "$work/rust/tests/edges.rs" <<'END'
use lcrvm::{create, Geometry, Result, Store};
use std::panic::{catch_unwind, AssertUnwindSafe};

const EXISTS: i32 = 67;
const OUT_OF_SEGMENT: i32 = 9;
const BUSY: i32 = 5;
const NOT_LOCKED: i32 = 7;
const STORE_IN_USE: i32 = 65;

fn put(store: &Store, number: i64, durable: bool) -> Result {
    let mut t = store.begin(&[1], &[], 0)?;
    t.write(1, 0, &number.to_le_bytes())?;
    t.commit(durable)
}

fn shown(store: &Store) -> Result<i64> {
    let mut bytes = [0; 8];
    store.begin(&[], &[1], 0)?.read(1, 0, &mut bytes)?;
    Ok(i64::from_le_bytes(bytes))
}

fn status_of<T>(result: Result<T>) -> i32 {
    result.err().map_or(0, |error| error.status)
}

#[test]
fn edges() -> Result {
    let folder = std::env::var("STORE").expect("STORE");
    let beside = format!("{folder}.copy");
    create(&folder, Some(&Geometry { nodes: 1, threads: 2, segments: 2, pages: 2, words: 256 }))?;
    let there = create(&folder, None).unwrap_err();
    assert!(there.status == EXISTS && there.to_string().contains("lcrvm.store"), "{there:?}");
    assert_eq!(status_of(create("a\0b", None)), 24);

    let store = Store::open(&folder)?;
    let in_use = Store::open(&folder).map(drop).unwrap_err();
    assert!(in_use.status == STORE_IN_USE && in_use.text.starts_with("store in use"), "{in_use:?}");
    put(&store, 7, true)?;
    {
        let mut t = store.begin(&[1], &[], 0)?;
        assert_eq!(status_of(t.write(1, 512, &[1])), OUT_OF_SEGMENT);
        assert_eq!(status_of(t.write(2, 0, &[1])), NOT_LOCKED);
        assert_eq!(status_of(store.begin(&[1], &[], 5000)), BUSY);
        t.write(1, 0, &[8])?;
    }
    assert_eq!(shown(&store)?, 7, "after a drop");
    let ended = catch_unwind(AssertUnwindSafe(|| {
        let mut t = store.begin(&[1], &[], 0).unwrap();
        t.write(1, 0, &[9]).unwrap();
        panic!("in its midst");
    }));
    assert!(ended.is_err());
    assert_eq!(shown(&store)?, 7, "after a panic");
    store.copy(&beside)?;

    let moved = store;
    put(&moved, 10, false)?;
    moved.close()?;
    let store = Store::open(&folder)?;
    assert_eq!(shown(&store)?, 10, "a lazy commit, after close");
    put(&store, 11, false)?;
    drop(store);
    assert_eq!(shown(&Store::open(&folder)?)?, 11, "a lazy commit, after a drop");
    assert_eq!(shown(&Store::open(&beside)?)?, 7, "the copy");
    Ok(())
}
END
    attempt 'the crate' cargo build -q --offline --manifest-path "$work/rust/Cargo.toml" --example bank
    attempt 'the bank, in Rust' "$work/target/debug/examples/bank" "$work/accounts_by_rust"
    attempt 'the edges, in Rust' env STORE="$work/store_by_rust" \
        cargo test -q --offline --manifest-path "$work/rust/Cargo.toml" --test edges
fi

# ---- The stores of the banks, by the program.

for folder in accounts accounts_by_rust store store_by_rust; do
    [ ! -d "$work/$folder" ] || attempt "$folder, by the program" "$program" check "$work/$folder"
done
for wrapper in include/lcrvm.hpp examples/rust/src/lib.rs; do
    attempt "$wrapper has more than 110 lines" test "$(wc -l < "$wrapper")" -le 110
done

ends_counted
