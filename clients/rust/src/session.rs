//! One connection, and what a transaction asks over it.
use crate::frames::{encode, key_of, value_of, Received, Reply, Stop, PAIRS_MAX};
use crate::{after, Error};
use std::cell::RefCell;
use std::collections::HashSet;
use std::io::{self, Read, Write};
use std::net::TcpStream;
use std::time::{Duration, Instant};

const WRITES_MAX: usize = 64;
const MARKS_MAX: usize = 256;

/// A connection. It is whole while no reply is due; else it is of no more use.
pub(crate) struct Session {
    pub(crate) stream: TcpStream,
    pub(crate) reply_timeout: Duration,
    pub(crate) is_whole: bool,
}

impl Session {
    /// Sends one request and gives its reply. The error is its refusal, or `Unreachable`.
    pub(crate) fn ask(&mut self, parts: &[&[u8]]) -> Result<Reply, Error> {
        if !self.is_whole {
            return Err(Error::Unreachable("the connection was lost".into()));
        }
        self.is_whole = false;
        let reply = self.exchange(&encode(parts)).map_err(|error| Error::Unreachable(error.to_string()))?;
        self.is_whole = true;
        match reply {
            Reply::Refused(text) => Err(Error::of_refusal(text)),
            reply => Ok(reply),
        }
    }

    fn exchange(&mut self, request: &[u8]) -> io::Result<Reply> {
        self.stream.set_write_timeout(Some(self.reply_timeout))?;
        self.stream.write_all(request)?;
        let end = Instant::now() + self.reply_timeout;
        let (mut bytes, mut piece) = (Vec::new(), [0; 1 << 16]);
        loop {
            let mut received = Received(&bytes);
            match received.reply() {
                Ok(reply) if received.0.is_empty() => return Ok(reply),
                Err(Stop::More) => {}
                _ => return Err(io::Error::other("this is no reply of ssikvd")),
            }
            let left = end.saturating_duration_since(Instant::now());
            if left.is_zero() {
                return Err(io::ErrorKind::TimedOut.into());
            }
            self.stream.set_read_timeout(Some(left))?;
            let count = self.stream.read(&mut piece)?;
            if count == 0 {
                return Err(io::Error::other("the server closed the connection: it has ended, or 128 are open"));
            }
            bytes.extend_from_slice(&piece[..count]);
        }
    }
}

/// What the work of `transact` reads and writes. It ends with the work, so it can't be kept.
pub struct Transaction {
    session: RefCell<Session>,
    written: RefCell<HashSet<Vec<u8>>>,
    read: RefCell<HashSet<Vec<u8>>>,
}

impl Transaction {
    pub(crate) fn new(session: Session) -> Self {
        Transaction { session: RefCell::new(session), written: RefCell::default(), read: RefCell::default() }
    }

    pub(crate) fn into_session(self) -> Session {
        self.session.into_inner()
    }

    pub(crate) fn begin(&self) -> Result<(), Error> {
        self.ask(&[b"BEGIN"]).map(drop)
    }

    /// Sends COMMIT. The error is its refusal, `Unreachable` before it is sent, or `Lost` where the outcome isn't known.
    pub(crate) fn commit(&self) -> Result<(), Error> {
        let was_whole = self.session.borrow().is_whole;
        match self.ask(&[b"COMMIT"]) {
            Ok(_) => Ok(()),
            Err(Error::Unreachable(text)) if was_whole => Err(Error::Lost(format!("no reply to COMMIT: {text}"))),
            Err(Error::Refused(text)) if text == "STORE fault" => Err(Error::Lost(text)),
            Err(error) => Err(error),
        }
    }

    /// Ends it without a COMMIT. The error is `Unreachable` where the connection was lost before: nothing was written.
    pub(crate) fn abort(&self) -> Result<(), Error> {
        let was_whole = self.session.borrow().is_whole;
        self.ask(&[b"ABORT"]).map(drop).or_else(|error| if was_whole { Ok(()) } else { Err(error) })
    }

    fn ask(&self, parts: &[&[u8]]) -> Result<Reply, Error> {
        self.session.borrow_mut().ask(parts)
    }

    /// The value of the key; `None` where it isn't there. Errors: `Invalid`, `Full` at the 257th new key, `Unreachable`.
    pub fn get(&self, key: impl AsRef<[u8]>) -> Result<Option<Vec<u8>>, Error> {
        let key = key_of(key.as_ref(), 1)?;
        self.note_read(key)?;
        match self.ask(&[b"GET", key])? {
            Reply::Value(value) => Ok(value),
            other => Err(Error::Refused(format!("GET was answered {other:?}"))),
        }
    }

    /// Writes the key. Errors: `Invalid`, `Full` at the 65th key that is written, `Unreachable`.
    pub fn set(&self, key: impl AsRef<[u8]>, value: impl AsRef<[u8]>) -> Result<(), Error> {
        let (key, value) = (key_of(key.as_ref(), 1)?, value_of(value.as_ref())?);
        self.note_write(key)?;
        self.ask(&[b"SET", key, value]).map(drop)
    }

    /// Deletes the key, whether it is there or not. Errors: those of `set`.
    pub fn delete(&self, key: impl AsRef<[u8]>) -> Result<(), Error> {
        let key = key_of(key.as_ref(), 1)?;
        self.note_write(key)?;
        self.ask(&[b"DEL", key]).map(drop)
    }

    /// The pairs with `lo <= key < hi` by rising key; an empty `hi` is no upper end. They are asked page by page, as they are needed.
    pub fn range(&self, lo: impl AsRef<[u8]>, hi: impl AsRef<[u8]>) -> Range<'_> {
        let lo = if lo.as_ref().is_empty() { b"\0" } else { lo.as_ref() };
        let fault = key_of(lo, 1).and(key_of(hi.as_ref(), 0)).err();
        Range { transaction: self, at: Some(lo.to_vec()), hi: hi.as_ref().to_vec(), left: None, fault, page: Vec::new().into_iter() }
    }

    fn note_read(&self, key: &[u8]) -> Result<(), Error> {
        if self.written.borrow().contains(key) {
            Ok(())
        } else {
            note(key, &mut self.read.borrow_mut(), MARKS_MAX, "marks")
        }
    }

    fn note_write(&self, key: &[u8]) -> Result<(), Error> {
        note(key, &mut self.written.borrow_mut(), WRITES_MAX, "writes")
    }
}

/// Adds the key, of which there may be so many.
fn note(key: &[u8], keys: &mut HashSet<Vec<u8>>, most: usize, limit: &str) -> Result<(), Error> {
    if !keys.contains(key) && keys.len() == most {
        return Err(Error::Full(limit.into()));
    }
    keys.insert(key.to_vec());
    Ok(())
}

/// The pairs of a range. An error is its last item.
pub struct Range<'a> {
    transaction: &'a Transaction,
    at: Option<Vec<u8>>,
    hi: Vec<u8>,
    left: Option<usize>,
    fault: Option<Error>,
    page: std::vec::IntoIter<(Vec<u8>, Vec<u8>)>,
}

impl Range<'_> {
    /// At most so many pairs, and at least 1: else the first item is `Invalid`. No page asks for more than are left.
    pub fn limit(mut self, limit: usize) -> Self {
        if limit == 0 && self.fault.is_none() {
            self.fault = Some(Error::Invalid("a limit is at least 1".into()));
        }
        self.left = Some(limit);
        self
    }

    /// Asks for the next page, if there is one.
    fn turn(&mut self) -> Result<(), Error> {
        let Some(at) = self.at.take().filter(|at| self.left != Some(0) && (self.hi.is_empty() || *at < self.hi)) else {
            return Ok(());
        };
        let size = self.left.map_or(PAIRS_MAX, |left| left.min(PAIRS_MAX));
        let parts = match self.transaction.ask(&[b"RANGE", &at, &self.hi, size.to_string().as_bytes()])? {
            Reply::Array(parts) if parts.len() % 2 == 0 => parts,
            other => return Err(Error::Refused(format!("RANGE was answered {other:?}"))),
        };
        let mut parts = parts.into_iter();
        let pairs: Vec<_> = std::iter::from_fn(|| Some((parts.next()?, parts.next()?))).collect();
        self.at = pairs.last().filter(|_| pairs.len() == size).and_then(|(key, _)| after(key));
        self.left = self.left.map(|left| left - pairs.len().min(left));
        self.page = pairs.into_iter();
        Ok(())
    }
}

impl Iterator for Range<'_> {
    type Item = Result<(Vec<u8>, Vec<u8>), Error>;

    fn next(&mut self) -> Option<Self::Item> {
        if let Some(fault) = self.fault.take() {
            self.at = None;
            return Some(Err(fault));
        }
        if self.page.len() == 0 {
            if let Err(error) = self.turn() {
                return Some(Err(error));
            }
        }
        self.page.next().map(Ok)
    }
}
