//! A client of ssikvd, an ordered key-value store with strictly serializable transactions.
//!
//! ```no_run
//! let store = ssikvd::connect("127.0.0.1:7777")?;
//! store.transact(|transaction| transaction.set("greeting", "hello"))?;
//! # Ok::<(), ssikvd::Error>(())
//! ```
//!
//! Reads and writes stand inside [`Store::transact`] or [`Store::once`] alone. A transaction ends with its work and can't be kept:
//!
//! ```compile_fail
//! let store = ssikvd::connect("127.0.0.1:7777")?;
//! let mut kept = None;
//! store.transact(|transaction| { kept = Some(transaction); Ok::<(), ssikvd::Error>(()) })?;
//! # Ok::<(), ssikvd::Error>(())
//! ```
#![forbid(unsafe_code)]
#![warn(missing_docs)]

mod errors;
mod frames;
mod session;

pub use errors::{Conflict, Error};
pub use frames::{after, end_of_prefix};
pub use session::{Range, Transaction};

use session::Session;
use std::collections::hash_map::RandomState;
use std::hash::{BuildHasher, Hasher};
use std::net::{TcpStream, ToSocketAddrs};
use std::sync::{Condvar, Mutex, MutexGuard, PoisonError};
use std::thread;
use std::time::{Duration, Instant};

const CONNECTIONS_MAX: usize = 64;

/// How a store is used.
#[derive(Debug, Clone)]
pub struct Options {
    /// The most connections of the pool, 1 to 64: those of all programs together should be at most 64.
    pub connections: usize,
    /// For opening one connection.
    pub connect_timeout: Duration,
    /// For one reply.
    pub reply_timeout: Duration,
    /// No try of a transaction begins later than this after the call.
    pub deadline: Duration,
}

impl Default for Options {
    fn default() -> Self {
        let seconds = Duration::from_secs;
        Options { connections: 16, connect_timeout: seconds(5), reply_timeout: seconds(10), deadline: seconds(30) }
    }
}

/// A store, with the options as they are by default. Errors: `Unreachable` where no server answers, `Invalid`.
pub fn connect(address: &str) -> Result<Store, Error> {
    connect_with(address, Options::default())
}

/// A store at HOST:PORT, once the server there has answered. Errors: those of [`connect`].
pub fn connect_with(address: &str, options: Options) -> Result<Store, Error> {
    if !address.rsplit_once(':').is_some_and(|(host, port)| !host.is_empty() && port.parse::<u16>().is_ok()) {
        return Err(Error::Invalid(format!("an address is HOST:PORT, this one is {address:?}")));
    }
    if !(1..=CONNECTIONS_MAX).contains(&options.connections) {
        return Err(Error::Invalid(format!("a pool has 1 to {CONNECTIONS_MAX} connections")));
    }
    let store = Store { address: address.into(), options, pool: Mutex::default(), returned: Condvar::new() };
    let mut session = store.open()?;
    session.ask(&[b"PING"])?;
    store.take_back(session);
    Ok(store)
}

/// The connections that are idle, and how many are lent.
#[derive(Default)]
struct Pool {
    idle: Vec<Session>,
    lent: usize,
    is_closed: bool,
}

/// A pool of connections, which threads may share by reference. Dropping it closes them.
pub struct Store {
    address: String,
    options: Options,
    pool: Mutex<Pool>,
    returned: Condvar,
}

/// A connection's place among those that are lent, for one try.
struct Place<'a>(&'a Store);

impl Drop for Place<'_> {
    fn drop(&mut self) {
        self.0.pool().lent -= 1;
        self.0.returned.notify_one();
    }
}

/// The tries of one call, none of which begins after its deadline.
struct Tries {
    end: Instant,
    failed: u32,
}

impl Tries {
    fn new(deadline: Duration) -> Self {
        Tries { end: Instant::now() + deadline, failed: 0 }
    }

    fn left(&self) -> Duration {
        self.end.saturating_duration_since(Instant::now())
    }

    /// Waits for a random time, so that two don't meet again and again. The error where no time is left.
    fn wait(&mut self, error: Error) -> Result<(), Error> {
        let most = 1_000 << self.failed.min(6);
        let wait = Duration::from_micros(RandomState::new().build_hasher().finish() % most);
        self.failed += 1;
        if wait >= self.left() {
            return Err(error);
        }
        thread::sleep(wait);
        Ok(())
    }
}

/// One try over a connection: what the work gave or raised, or else an error of ours. Where `work` panics, the connection is dropped.
fn run<T, E>(transaction: &Transaction, mut work: impl FnMut(&Transaction) -> Result<T, E>) -> Result<Result<T, E>, Error> {
    transaction.begin()?;
    let made = work(transaction);
    if made.is_ok() {
        transaction.commit()?
    } else {
        transaction.abort()?
    }
    Ok(made)
}

impl Store {
    /// Runs `work`, commits, and gives what the work gave.
    ///
    /// The work may run more than once, so it does nothing but read and write through its transaction. An error of its own aborts the
    /// transaction and is given back; where the connection was lost meanwhile, `work` runs again. No try begins after the deadline: then
    /// the last try's `Conflict`, `Full` or `Unreachable` is given. Errors also: `Stopped`, `Refused`, `Lost`.
    pub fn transact<T, E: From<Error>>(&self, work: impl FnMut(&Transaction) -> Result<T, E>) -> Result<T, E> {
        self.attempts(&mut Tries::new(self.options.deadline), work)?
    }

    /// Commits the work once for this key, however often it is called, and gives the bytes that the work gave then.
    ///
    /// The store keeps them as the value of the key. Errors: those of [`Store::transact`], and `Lost` where the outcome of a try isn't known.
    pub fn once<E: From<Error>>(
        &self,
        key: impl AsRef<[u8]>,
        mut work: impl FnMut(&Transaction) -> Result<Vec<u8>, E>,
    ) -> Result<Vec<u8>, E> {
        let (key, mut tries, mut lost) = (frames::key_of(key.as_ref(), 1)?, Tries::new(self.options.deadline), None);
        loop {
            let found = self.attempts(&mut tries, |transaction| match transaction.get(key)? {
                Some(found) => Ok(found),
                None => {
                    let made = work(transaction)?;
                    transaction.set(key, &made)?;
                    Ok::<_, E>(made)
                }
            });
            match (found, lost.take()) {
                (Ok(Ok(found)), _) => return Ok(found),
                (Err(error @ Error::Lost(_)), _) => {
                    lost = Some(error.clone());
                    tries.wait(error)?;
                }
                (_, Some(lost)) => return Err(lost.into()),
                (Err(error), None) => return Err(error.into()),
                (Ok(Err(error)), None) => return Err(error),
            }
        }
    }

    /// Closes the connections that are idle, and each other one at the end of its transaction. Later calls are `Invalid`.
    pub fn close(&self) {
        let mut pool = self.pool();
        pool.is_closed = true;
        pool.idle.clear();
    }

    fn attempts<T, E>(&self, tries: &mut Tries, mut work: impl FnMut(&Transaction) -> Result<T, E>) -> Result<Result<T, E>, Error> {
        loop {
            match self.attempt(tries.left(), &mut work) {
                Err(error) if error.begins_again() => tries.wait(error)?,
                other => return other,
            }
        }
    }

    fn attempt<T, E>(&self, left: Duration, mut work: impl FnMut(&Transaction) -> Result<T, E>) -> Result<Result<T, E>, Error> {
        let (_place, session) = self.lend(left)?;
        let transaction = Transaction::new(session);
        let ended = run(&transaction, &mut work);
        self.take_back(transaction.into_session());
        ended
    }

    /// Keeps the connection where it is whole. Else it is closed, and those that are idle with it.
    fn take_back(&self, session: Session) {
        let mut pool = self.pool();
        if session.is_whole && !pool.is_closed {
            pool.idle.push(session);
        } else {
            pool.idle.clear();
        }
    }

    fn pool(&self) -> MutexGuard<'_, Pool> {
        self.pool.lock().unwrap_or_else(PoisonError::into_inner)
    }

    /// A connection, once one is idle or there is room for one more.
    fn lend(&self, left: Duration) -> Result<(Place<'_>, Session), Error> {
        let end = Instant::now() + left;
        let mut pool = self.pool();
        while !pool.is_closed && pool.lent == self.options.connections {
            let left = end.saturating_duration_since(Instant::now());
            if left.is_zero() {
                return Err(Error::Full("connections".into()));
            }
            pool = self.returned.wait_timeout(pool, left).unwrap_or_else(PoisonError::into_inner).0;
        }
        if pool.is_closed {
            return Err(Error::Invalid("the store is closed".into()));
        }
        pool.lent += 1;
        let idle = pool.idle.pop();
        drop(pool);
        let place = Place(self);
        Ok((place, idle.map_or_else(|| self.open(), Ok)?))
    }

    fn open(&self) -> Result<Session, Error> {
        let unreachable = |error: std::io::Error| Error::Unreachable(error.to_string());
        let mut last = Error::Unreachable("the name has no address".into());
        for address in self.address.to_socket_addrs().map_err(unreachable)? {
            match TcpStream::connect_timeout(&address, self.options.connect_timeout) {
                Ok(stream) => {
                    stream.set_nodelay(true).map_err(unreachable)?;
                    return Ok(Session { stream, reply_timeout: self.options.reply_timeout, is_whole: true });
                }
                Err(error) => last = unreachable(error),
            }
        }
        Err(last)
    }
}
