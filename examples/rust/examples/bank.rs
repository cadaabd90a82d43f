//! A bank of eight threads on one store. Money moves between accounts of two segments, and a panic gives some transfers
//! up in their midst. The sum stays, also after the store is opened again.
//!
//! usage: bank FOLDER [TRANSFERS]     (a folder that is not there, or holds no store; 200 transfers a thread)
use lcrvm::{create, Result, Store, Transaction};
use std::{env, panic, process::ExitCode, thread};

const TELLERS: u64 = 8;
const ACCOUNTS: u64 = 100; // in segments 1 and 2, by turns
const FIRST: i64 = 1000;
const COUNTER: u32 = 8 * ACCOUNTS as u32; // the transfers that were made, at the end of segment 1

fn place_of(account: u64) -> (u32, u32) {
    (1 + (account % 2) as u32, 8 * (account / 2) as u32)
}

fn get(t: &Transaction, (segment, offset): (u32, u32)) -> Result<i64> {
    let mut bytes = [0; 8];
    t.read(segment, offset, &mut bytes)?;
    Ok(i64::from_le_bytes(bytes))
}

fn add(t: &mut Transaction, place: (u32, u32), by: i64) -> Result {
    let now = get(t, place)? + by;
    t.write(place.0, place.1, &now.to_le_bytes())
}

fn transfer(store: &Store, from: u64, to: u64, amount: i64, durable: bool) -> Result {
    let mut t = store.begin(&[1, 2], &[], 5000)?;
    add(&mut t, place_of(from), -amount)?;
    assert!(amount % 8 != 0, "given up");
    add(&mut t, place_of(to), amount)?;
    add(&mut t, (1, COUNTER), 1)?;
    t.commit(durable)
}

fn teller(store: &Store, number: u64, transfers: u64) -> Result<i64> {
    let (mut made, mut chance) = (0, number + 1);
    for i in 0..transfers {
        chance = chance.wrapping_mul(6364136223846793005).wrapping_add(1442695040888963407);
        let (from, to, amount) = ((chance >> 33) % ACCOUNTS, (chance >> 41) % ACCOUNTS, (chance >> 50 & 63) as i64);
        let ended = panic::catch_unwind(|| transfer(store, from, to, amount, i % 8 == 0));
        if let Ok(result) = ended {
            result?;
            made += 1;
        }
    }
    Ok(made)
}

/// Whether the accounts have what they had at first together, and the counter says what was made.
fn is_right(store: &Store, made: i64) -> Result<bool> {
    let t = store.begin(&[], &[1, 2], 5000)?;
    let (mut sum, wanted) = (0, ACCOUNTS as i64 * FIRST);
    for account in 0..ACCOUNTS {
        sum += get(&t, place_of(account))?;
    }
    let counted = get(&t, (1, COUNTER))?;
    println!("{counted} of {made} transfers, {sum} of {wanted} coins");
    Ok(sum == wanted && counted == made)
}

fn run(folder: &str, transfers: u64) -> Result<bool> {
    create(folder, None)?;
    let store = Store::open(folder)?;
    let mut t = store.begin(&[1, 2], &[], 5000)?;
    for account in 0..ACCOUNTS {
        add(&mut t, place_of(account), FIRST)?;
    }
    t.commit(true)?;
    let made = thread::scope(|scope| {
        let one = |number| scope.spawn({ let store = &store; move || teller(store, number, transfers) });
        let working: Vec<_> = (0..TELLERS).map(one).collect();
        working.into_iter().map(|one| one.join().expect("a teller")).sum::<Result<i64>>()
    })?;
    let right = is_right(&store, made)?;
    store.close()?;
    Ok(is_right(&Store::open(folder)?, made)? && right)
}

fn main() -> ExitCode {
    let words: Vec<String> = env::args().collect();
    let Some(folder) = words.get(1) else { return ExitCode::from(2) };
    let transfers = words.get(2).map_or(200, |word| word.parse().expect("a number of transfers"));
    panic::set_hook(Box::new(|_| ()));
    match run(folder, transfers) {
        Ok(true) => ExitCode::SUCCESS,
        Ok(false) => ExitCode::FAILURE,
        Err(error) => {
            eprintln!("bank: {error}");
            ExitCode::FAILURE
        }
    }
}
