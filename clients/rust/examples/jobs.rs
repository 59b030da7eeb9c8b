//! The jobs of harness/packages.py: `jobs ADDRESS JOB WORDS..`.
use ssikvd::{after, connect, connect_with, Conflict, Error, Options, Store, Transaction};
use std::sync::atomic::{AtomicUsize, Ordering};
use std::time::Duration;

/// What a work of ours raises.
enum Failure {
    Store(Error),
    Raised,
}

impl From<Error> for Failure {
    fn from(error: Error) -> Self {
        Failure::Store(error)
    }
}

fn shown(error: Failure) -> String {
    match error {
        Failure::Raised => "Raised".into(),
        Failure::Store(Error::Conflict(Conflict::Overwritten(key))) => {
            format!("Conflict key {}", key.iter().map(|byte| format!("{byte:02x}")).collect::<String>())
        }
        Failure::Store(Error::Conflict(Conflict::PivotSelf)) => "Conflict pivot self".into(),
        Failure::Store(Error::Conflict(Conflict::Pivot(number))) => format!("Conflict pivot {number}"),
        Failure::Store(Error::Full(limit)) => format!("Full {limit}"),
        Failure::Store(Error::Refused(text)) => format!("Refused {text}"),
        Failure::Store(Error::Stopped) => "Stopped".into(),
        Failure::Store(Error::Lost(_)) => "Lost".into(),
        Failure::Store(Error::Unreachable(_)) => "Unreachable".into(),
        Failure::Store(_) => "Invalid".into(),
    }
}

fn patient(address: &str) -> Store {
    connect_with(address, Options { deadline: Duration::from_secs(60), ..Options::default() }).unwrap()
}

fn number_of(value: Option<Vec<u8>>) -> u64 {
    value.map_or(0, |value| String::from_utf8(value).unwrap().parse().unwrap())
}

/// Runs so many workers at once.
fn together(workers: usize, work: impl Fn(usize) + Sync) {
    std::thread::scope(|scope| {
        for worker in 0..workers {
            let work = &work;
            scope.spawn(move || work(worker));
        }
    });
}

fn count(address: &str, name: &str, workers: usize, times: usize) {
    let (store, tries) = (patient(address), AtomicUsize::new(0));
    let add = |transaction: &Transaction| {
        tries.fetch_add(1, Ordering::Relaxed);
        let found = number_of(transaction.get(name)?);
        transaction.set(name, (found + 1).to_string())?;
        Ok::<_, Error>(Vec::new())
    };
    together(workers, |worker| {
        for turn in 0..times {
            store.once(format!("{name}:{worker}:{turn}"), add).unwrap();
        }
    });
    let found = store.transact(|transaction| transaction.get(name)).unwrap();
    println!("counter {} tries {}", number_of(found), tries.load(Ordering::Relaxed));
}

fn book(transaction: &Transaction, room: &str, worker: usize, turn: usize) -> Result<Vec<u8>, Error> {
    let start = (13 * worker + 7 * turn) % 60;
    let end = start + 1 + (worker + turn) % 5;
    if let Some(next) = transaction.range(format!("{room}:{:03}", start + 1), format!("{room};")).limit(1).next() {
        let (_, value) = next?;
        let begins: usize = String::from_utf8_lossy(&value).split(' ').next().unwrap().parse().unwrap();
        if begins < end {
            return Ok(b"taken".to_vec());
        }
    }
    transaction.set(format!("{room}:{end:03}"), format!("{start} {worker} {turn}"))?;
    Ok(b"booked".to_vec())
}

fn reserve(address: &str, room: &str, workers: usize, times: usize) {
    let store = patient(address);
    together(workers, |worker| {
        for turn in 0..times {
            let found = store.once(format!("by:{room}:{worker}:{turn}"), |transaction| book(transaction, room, worker, turn)).unwrap();
            println!("{worker} {turn} {}", String::from_utf8_lossy(&found));
        }
    });
}

fn walk(address: &str, pairs: usize) {
    let (store, mut at, mut number, mut sum) = (patient(address), Some(b"\0".to_vec()), 0, 0u64);
    while let Some(from) = at {
        let found = store.transact(|transaction| transaction.range(&from, "").limit(pairs).collect::<Result<Vec<_>, _>>()).unwrap();
        sum = found
            .iter()
            .flat_map(|(key, value)| key.iter().chain(value))
            .fold(sum, |sum, byte| (31 * sum + u64::from(*byte)) % 1_000_000_007);
        number += found.len();
        at = found.last().filter(|_| found.len() == pairs).and_then(|(key, _)| after(key));
    }
    println!("pairs {number} sum {sum}");
}

fn errors(address: &str) {
    let impatient = Options { deadline: Duration::ZERO, ..Options::default() };
    let store = connect_with(address, impatient.clone()).unwrap();
    let small = connect_with(address, Options { connections: 1, ..impatient }).unwrap();
    let tell = |what: &str, found: Result<(), Failure>| println!("{what}: {}", found.map_or_else(shown, |()| "done".into()));
    let tried = |what: &str, work: &dyn Fn(&Transaction) -> Result<(), Failure>| tell(what, store.transact(work));

    tried("overwritten", &|transaction| {
        transaction.set("k", "1")?;
        Ok(store.transact(|other| other.set("k", "2"))?)
    });
    tried("pivot", &|transaction| {
        transaction.get("x")?;
        transaction.set("y", "1")?;
        Ok(store.transact(|other| other.get("y").and_then(|_| other.set("x", "1")))?)
    });
    tried("writes", &|transaction| (0..65).try_for_each(|number| transaction.set(format!("w{number}"), "")).map_err(Failure::Store));
    tried("marks", &|transaction| (0..257).try_for_each(|number| transaction.get(format!("m{number}")).map(drop)).map_err(Failure::Store));
    tell("connections", small.transact(|_| Ok(small.transact(|other| other.get("k").map(drop))?)));
    tried("empty key", &|transaction| Ok(transaction.get("").map(drop)?));
    tried("long key", &|transaction| Ok(transaction.get("a".repeat(257)).map(drop)?));
    tried("long value", &|transaction| Ok(transaction.set("a", "a".repeat(16_385))?));
    tried("zero limit", &|transaction| Ok(transaction.range("", "").limit(0).try_for_each(|pair| pair.map(drop))?));
    println!("ended: Invalid"); // a transaction can't be kept: a test of the documentation says so
    tried("raised", &|transaction| transaction.set("raised", "1").map_err(Failure::Store).and(Err(Failure::Raised)));
    let found = store.transact(|transaction| transaction.get("raised")).unwrap();
    println!("after it: {}", if found.is_none() { "none" } else { "kept" });
    store.close();
    tried("closed", &|_| Ok(()));
}

fn seconds(word: &str) -> Duration {
    Duration::from_secs_f64(word.parse().unwrap())
}

fn attempt(address: &str, deadline: &str, reply: &str, work: impl Fn(&Store) -> Result<String, Error>) {
    let options = Options { deadline: seconds(deadline), reply_timeout: seconds(reply), ..Options::default() };
    let found = connect_with(address, options).and_then(|store| work(&store));
    println!("{}", found.unwrap_or_else(|error| shown(Failure::Store(error))));
}

fn main() {
    let words: Vec<String> = std::env::args().skip(1).collect();
    let words: Vec<&str> = words.iter().map(String::as_str).collect();
    let number = |word: &str| word.parse().unwrap();
    match words[..] {
        [address, "count", name, workers, times] => count(address, name, number(workers), number(times)),
        [address, "reserve", room, workers, times] => reserve(address, room, number(workers), number(times)),
        [address, "walk", pairs] => walk(address, number(pairs)),
        [address, "errors"] => errors(address),
        [address, "set", key, value, deadline, reply] => {
            attempt(address, deadline, reply, |store| store.transact(|transaction| transaction.set(key, value)).map(|()| "done".into()));
        }
        [address, "once", key, deadline, reply] => attempt(address, deadline, reply, |store| {
            store.once(key, |_| Ok::<_, Error>(b"made".to_vec())).map(|found| String::from_utf8_lossy(&found).into_owned())
        }),
        _ => drop(connect("")),
    }
}
