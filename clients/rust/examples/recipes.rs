//! The recipes of docs/COOKBOOK.md: `recipes ADDRESS CALL WORDS..`. Without a call it takes calls from its input, one in each line.
//!
//! Each function that takes a transaction is part of a work of `Store::transact`, and may run more than once.
use ssikvd::{connect, end_of_prefix, Error, Store, Transaction};
use std::io::BufRead;
use std::time::{Duration, SystemTime};

type Pair = (Vec<u8>, Vec<u8>);

// Keys of several parts

const INTEGER: u8 = 1;
const TEXT: u8 = 2;

/// A part of a key.
#[derive(Clone, Debug, PartialEq)]
pub enum Part {
    Integer(i64),
    Text(Vec<u8>),
}

impl From<i64> for Part {
    fn from(number: i64) -> Self {
        Part::Integer(number)
    }
}

impl From<&str> for Part {
    fn from(text: &str) -> Self {
        Part::Text(text.into())
    }
}

impl From<Vec<u8>> for Part {
    fn from(text: Vec<u8>) -> Self {
        Part::Text(text)
    }
}

/// The key of these parts. Where two keys differ in a part, the first such part decides which is the lesser.
pub fn key(parts: &[Part]) -> Vec<u8> {
    let mut made = Vec::new();
    for part in parts {
        match part {
            Part::Integer(number) => push_integer(&mut made, *number),
            Part::Text(text) => push_text(&mut made, text),
        }
    }
    made
}

/// Eight bytes, the greatest first. With 2^63 added, the negative ones come before zero.
fn push_integer(made: &mut Vec<u8>, number: i64) {
    made.push(INTEGER);
    made.extend(number.wrapping_add(i64::MIN).to_be_bytes());
}

/// The text and an end that is less than all that may follow. A zero byte in the text is written as 0, 255; the end is 0, 1.
fn push_text(made: &mut Vec<u8>, text: &[u8]) {
    made.push(TEXT);
    for byte in text {
        made.push(*byte);
        if *byte == 0 {
            made.push(255);
        }
    }
    made.extend([0, 1]);
}

/// The key of parts of several kinds: `key!["job", at, producer]`.
macro_rules! key {
    ($($part:expr),*) => { key(&[$(Part::from($part)),*]) };
}

/// The parts of a key.
pub fn parts_of(key: &[u8]) -> Vec<Part> {
    let (mut parts, mut bytes) = (Vec::new(), key.iter().copied());
    while let Some(tag) = bytes.next() {
        if tag == INTEGER {
            let number = bytes.by_ref().take(8).fold(0u64, |number, byte| number << 8 | u64::from(byte));
            parts.push(Part::Integer((number as i64).wrapping_sub(i64::MIN)));
        } else {
            parts.push(Part::Text(text_from(&mut bytes)));
        }
    }
    parts
}

fn text_from(bytes: &mut impl Iterator<Item = u8>) -> Vec<u8> {
    let mut text = Vec::new();
    while let Some(byte) = bytes.next() {
        if byte == 0 && bytes.next() == Some(1) {
            break;
        }
        text.push(byte);
    }
    text
}

/// One part of a key, which is a text.
fn text_of(key: &[u8], part: usize) -> String {
    match &parts_of(key)[part] {
        Part::Text(text) => utf8(text),
        Part::Integer(number) => number.to_string(),
    }
}

fn utf8(data: &[u8]) -> String {
    String::from_utf8_lossy(data).into_owned()
}

/// The pairs whose keys begin with those of a key, at most so many.
fn under(transaction: &Transaction, prefix: Vec<u8>, limit: usize) -> Result<Vec<Pair>, Error> {
    let end = end_of_prefix(&prefix).unwrap_or_default();
    transaction.range(prefix, end).limit(limit).collect()
}

fn number(value: Option<Vec<u8>>) -> i64 {
    value.and_then(|value| utf8(&value).parse().ok()).unwrap_or(0)
}

/// The two parts of a value that begins with a time.
fn time_and_name(value: &[u8]) -> (i64, String) {
    let text = utf8(value);
    let (time, name) = text.split_once(' ').unwrap_or((&text, ""));
    (time.parse().unwrap_or(0), name.into())
}

// Reservations

/// Who has the room at some moment from the start up to the end.
pub fn holder(transaction: &Transaction, room: &str, start: i64, end: i64) -> Result<Option<String>, Error> {
    let end_of_room = end_of_prefix(key!["booking", room]).unwrap_or_default();
    let first = transaction.range(key!["booking", room, start + 1], end_of_room).limit(1).next(); // the first booking that ends after the start
    let found = first.transpose()?.map(|(_, value)| time_and_name(&value));
    Ok(found.filter(|(begin, _)| *begin < end).map(|(_, who)| who))
}

/// Books the room, unless someone has it then. Gives who had it.
pub fn book(transaction: &Transaction, room: &str, start: i64, end: i64, who: &str) -> Result<Option<String>, Error> {
    let other = holder(transaction, room, start, end)?;
    if other.is_none() {
        transaction.set(key!["booking", room, end], format!("{start} {who}"))?;
    }
    Ok(other)
}

// A unique address

/// Gives the user the address in place of the one before, unless another has it. Did it?
pub fn register(transaction: &Transaction, user: &str, address: &str) -> Result<bool, Error> {
    if transaction.get(key!["address", address])?.is_some_and(|owner| owner != user.as_bytes()) {
        return Ok(false);
    }
    if let Some(old) = transaction.get(key!["user", user])? {
        transaction.delete(key!["address", old])?;
    }
    transaction.set(key!["address", address], user)?;
    transaction.set(key!["user", user], address)?;
    Ok(true)
}

// An index

/// Writes the state of the task, and its entry in the index in place of the one before.
pub fn put(transaction: &Transaction, task: &str, state: &str) -> Result<(), Error> {
    if let Some(old) = transaction.get(key!["task", task])? {
        transaction.delete(key!["by state", old, task])?;
    }
    transaction.set(key!["task", task], state)?;
    transaction.set(key!["by state", state, task], "")
}

/// The tasks in this state, by rising name.
pub fn with_state(transaction: &Transaction, state: &str) -> Result<Vec<String>, Error> {
    let found = under(transaction, key!["by state", state], usize::MAX)?;
    Ok(found.iter().map(|(entry, _)| text_of(entry, 2)).collect())
}

// Holds that expire. The store has no clock: each program passes its own, in whole seconds.

const SWEPT_MAX: usize = 32; // of two writes each, which makes the 64 of a transaction

/// When the hold of the seat ends, and whose it is; `None` where there is none, swept or not.
fn held(transaction: &Transaction, seat: &str) -> Result<Option<(i64, String)>, Error> {
    Ok(transaction.get(key!["hold", seat])?.map(|value| time_and_name(&value)))
}

fn release(transaction: &Transaction, seat: &str, ends: i64) -> Result<(), Error> {
    transaction.delete(key!["hold", seat])?;
    transaction.delete(key!["ends", ends, seat])
}

/// Holds the seat, unless it is sold or held by someone. Did it?
pub fn hold(transaction: &Transaction, seat: &str, who: &str, now: i64, seconds: i64) -> Result<bool, Error> {
    if transaction.get(key!["sold", seat])?.is_some() {
        return Ok(false);
    }
    if let Some((ends, _)) = held(transaction, seat)? {
        if ends > now {
            return Ok(false);
        }
        release(transaction, seat, ends)?; // its time is over, and no sweep has come by
    }
    transaction.set(key!["hold", seat], format!("{} {who}", now + seconds))?;
    transaction.set(key!["ends", now + seconds, seat], "")?;
    Ok(true)
}

/// Sells the seat to the one that holds it. Did it?
pub fn buy(transaction: &Transaction, seat: &str, who: &str, now: i64) -> Result<bool, Error> {
    let Some((ends, _)) = held(transaction, seat)?.filter(|(ends, other)| *ends > now && other == who) else {
        return Ok(false);
    };
    release(transaction, seat, ends)?;
    transaction.set(key!["sold", seat], who)?;
    Ok(true)
}

/// Drops holds whose time is over, the oldest first, and gives how many. Where it is `SWEPT_MAX`, there may be more.
pub fn sweep(transaction: &Transaction, now: i64) -> Result<usize, Error> {
    let found: Vec<Pair> = transaction.range(key!["ends"], key!["ends", now + 1]).limit(SWEPT_MAX).collect::<Result<_, _>>()?;
    for (entry, _) in &found {
        if let Part::Integer(ends) = parts_of(entry)[1] {
            release(transaction, &text_of(entry, 2), ends)?;
        }
    }
    Ok(found.len())
}

// A queue

/// Sets the job at the tail. No two jobs of one producer have the same time.
pub fn enqueue(transaction: &Transaction, job: &str, at: i64, producer: i64) -> Result<(), Error> {
    transaction.set(key!["job", at, producer], job)
}

/// Deletes the job at the head and gives it; `None` where there is none.
pub fn take(transaction: &Transaction) -> Result<Option<Vec<u8>>, Error> {
    let Some((place, job)) = under(transaction, key!["job"], 1)?.pop() else {
        return Ok(None);
    };
    transaction.delete(place)?;
    Ok(Some(job))
}

/// Takes one of the first jobs by chance. It looks in a transaction of its own, so two clients meet only where they choose the same one.
pub fn take_near(store: &Store, width: usize) -> Result<Option<Vec<u8>>, Error> {
    loop {
        let near = store.transact(|transaction| under(transaction, key!["job"], width))?;
        if near.is_empty() {
            return Ok(None);
        }
        let (place, _) = &near[chosen(near.len())];
        if let Some(job) = store.transact(|transaction| remove(transaction, place))? {
            return Ok(Some(job));
        }
    }
}

/// One of so many, by chance, from the seed that each of std's hash tables has.
fn chosen(count: usize) -> usize {
    use std::hash::{BuildHasher, Hasher};
    std::collections::hash_map::RandomState::new().build_hasher().finish() as usize % count
}

/// Deletes the job at this key and gives it; `None` where another took it.
fn remove(transaction: &Transaction, place: &[u8]) -> Result<Option<Vec<u8>>, Error> {
    let job = transaction.get(place)?;
    if job.is_some() {
        transaction.delete(place)?;
    }
    Ok(job)
}

// A counter with many writers

/// Adds to the number at this key: that of the counter, or of the counter and a writer.
pub fn add(transaction: &Transaction, place: &[u8], amount: i64) -> Result<(), Error> {
    let found = number(transaction.get(place)?);
    transaction.set(place, (found + amount).to_string())
}

/// The sum over the counter's key and those of its writers.
pub fn total(transaction: &Transaction, counter: &str) -> Result<i64, Error> {
    let found = under(transaction, key![counter], usize::MAX)?;
    Ok(found.into_iter().map(|(_, value)| number(Some(value))).sum())
}

// More than 64 writes. Versions are integers above 0, each greater than the one before.

const STEP: usize = 62; // with the mark of how far it is, and the current version, 64 writes

/// The version of the list that is read now; 0 where there is none.
pub fn current(transaction: &Transaction, name: &str) -> Result<i64, Error> {
    Ok(number(transaction.get(key!["current", name])?))
}

/// Writes the next items of a version, and how far it is; at last also that it is the current one. Is there more to write?
pub fn step(transaction: &Transaction, name: &str, version: i64, items: &[(String, String)]) -> Result<bool, Error> {
    let mark = key!["written", name, version];
    let done = number(transaction.get(&mark)?) as usize;
    for (item, value) in items.iter().skip(done).take(STEP) {
        transaction.set(key!["item", name, version, item.as_str()], value)?;
    }
    transaction.set(mark, items.len().min(done + STEP).to_string())?;
    if done + STEP < items.len() {
        return Ok(true);
    }
    if version > current(transaction, name)? {
        transaction.set(key!["current", name], version.to_string())?;
    }
    Ok(false)
}

/// Writes a version in several transactions. If it is interrupted, run it again with the same items: it goes on where it was.
pub fn load(store: &Store, name: &str, version: i64, items: &[(String, String)]) -> Result<(), Error> {
    while store.transact(|transaction| step(transaction, name, version, items))? {}
    Ok(())
}

/// The items of the current version and their values.
pub fn read(transaction: &Transaction, name: &str) -> Result<Vec<(String, String)>, Error> {
    let found = under(transaction, key!["item", name, current(transaction, name)?], usize::MAX)?;
    Ok(found.iter().map(|(key, value)| (text_of(key, 3), utf8(value))).collect())
}

/// Deletes up to 64 items of versions before the current one, and gives how many.
pub fn clear(transaction: &Transaction, name: &str) -> Result<usize, Error> {
    let end = key!["item", name, current(transaction, name)?];
    let found: Vec<Pair> = transaction.range(key!["item", name], end).limit(64).collect::<Result<_, _>>()?;
    found.iter().try_for_each(|(place, _)| transaction.delete(place))?;
    Ok(found.len())
}

// The calls

fn hex(data: &[u8]) -> String {
    data.iter().map(|byte| format!("{byte:02x}")).collect()
}

fn unhex(digits: &str) -> Vec<u8> {
    (0..digits.len()).step_by(2).map(|at| u8::from_str_radix(&digits[at..at + 2], 16).unwrap()).collect()
}

/// A part of a key: an integer, bytes as 0x and hex digits, or a text.
fn part(word: &&str) -> Part {
    match (word.parse::<i64>(), word.strip_prefix("0x")) {
        (Ok(number), _) => number.into(),
        (_, Some(digits)) => unhex(digits).into(),
        _ => (*word).into(),
    }
}

fn parts(words: &[&str]) -> Vec<Part> {
    words.iter().map(part).collect()
}

fn shown(part: &Part) -> String {
    match part {
        Part::Integer(number) => number.to_string(),
        Part::Text(text) => format!("0x{}", hex(text)),
    }
}

fn clock() -> Duration {
    SystemTime::now().duration_since(SystemTime::UNIX_EPOCH).unwrap()
}

/// The word at this place as an integer, or else the other.
fn or(words: &[&str], at: usize, other: impl Fn() -> i64) -> i64 {
    words.get(at).map_or_else(other, |word| word.parse().unwrap())
}

fn either(is: bool, yes: &str, no: &str) -> String {
    if is { yes } else { no }.into()
}

fn job_of(found: Option<Vec<u8>>) -> String {
    found.map_or("none".into(), |job| utf8(&job))
}

fn joined(items: &[(String, String)]) -> String {
    items.iter().map(|(item, value)| format!("{item}={value}")).collect::<Vec<_>>().join(" ")
}

/// What a call gives, in one line.
fn answer(store: &Store, call: &str, words: &[&str]) -> Result<String, Error> {
    let integer = |at: usize| words[at].parse::<i64>().unwrap();
    let now = || clock().as_secs() as i64;
    match call {
        "key" => Ok(hex(&key(&parts(words)))),
        "parts" => Ok(parts_of(&unhex(words[0])).iter().map(shown).collect::<Vec<_>>().join(" ")),
        "take_near" => Ok(job_of(take_near(store, integer(0) as usize)?)),
        "load" => {
            let items: Vec<_> =
                words[2..].iter().filter_map(|word| word.split_once('=')).map(|(item, value)| (item.into(), value.into())).collect();
            load(store, words[0], integer(1), &items).map(|()| "done".into())
        }
        _ => store.transact(|transaction| match call {
            "book" => {
                let other = book(transaction, words[0], integer(1), integer(2), words[3])?;
                Ok(other.map_or("booked".into(), |other| format!("{other} has it")))
            }
            "register" => Ok(either(register(transaction, words[0], words[1])?, "registered", "another has it")),
            "put" => put(transaction, words[0], words[1]).map(|()| "done".into()),
            "list" => Ok(with_state(transaction, words[0])?.join(" ")),
            "hold" => Ok(either(hold(transaction, words[0], words[1], or(words, 3, now), integer(2))?, "held", "not free")),
            "buy" => Ok(either(buy(transaction, words[0], words[1], or(words, 2, now))?, "sold", "not held")),
            "sweep" => Ok(format!("{} dropped", sweep(transaction, or(words, 0, now))?)),
            "enqueue" => {
                let (at, producer) = (or(words, 1, || clock().as_nanos() as i64), or(words, 2, || i64::from(std::process::id())));
                enqueue(transaction, words[0], at, producer).map(|()| "done".into())
            }
            "take" => Ok(job_of(take(transaction)?)),
            "add" => add(transaction, &key(&parts(words)), 1).map(|()| "done".into()),
            "total" => Ok(total(transaction, words[0])?.to_string()),
            "show" => Ok(joined(&read(transaction, words[0])?)),
            "clear" => Ok(format!("{} deleted", clear(transaction, words[0])?)),
            _ => Err(Error::Invalid(format!("no call is {call}"))),
        }),
    }
}

fn main() -> Result<(), Error> {
    let words: Vec<String> = std::env::args().skip(1).collect();
    let store = connect(&words[0])?;
    let words: Vec<&str> = words[1..].iter().map(String::as_str).collect();
    if let [call, words @ ..] = &words[..] {
        println!("{}", answer(&store, call, words)?);
        return Ok(());
    }
    for line in std::io::stdin().lock().lines().map_while(Result::ok) {
        let words: Vec<&str> = line.split(' ').collect();
        println!("{}", answer(&store, words[0], &words[1..])?);
    }
    Ok(())
}
