//! What a call raises, and what the words of a refusal mean.
use std::fmt;

/// What a COMMIT met that was refused for a conflict.
#[derive(Debug, Clone, PartialEq, Eq)]
pub enum Conflict {
    /// Another transaction has written this key since the BEGIN.
    Overwritten(Vec<u8>),
    /// This transaction stands between two others in a dangerous structure.
    PivotSelf,
    /// The committed transaction of this number would.
    Pivot(u64),
}

/// What this crate raises.
#[derive(Debug, Clone, PartialEq, Eq)]
#[non_exhaustive]
pub enum Error {
    /// COMMIT met other commits, until the deadline. Nothing was written.
    Conflict(Conflict),
    /// A limit: `transactions`, `writes`, `marks`, `log`, `numbers` or `connections`. Nothing was written.
    Full(String),
    /// The store is stopped by a fault of its device. Nothing was written.
    Stopped,
    /// Another refusal of the server's: a fault of the program, or of this crate.
    Refused(String),
    /// COMMIT was sent, and its outcome isn't known. `once` with the same key settles it.
    Lost(String),
    /// No connection, or one that was lost before COMMIT was sent. Nothing was written.
    Unreachable(String),
    /// A call that breaks a limit. Nothing was sent.
    Invalid(String),
}

impl Error {
    /// The error of a refusal of the server's.
    pub(crate) fn of_refusal(text: String) -> Error {
        let words: Vec<&str> = text.split(' ').collect();
        match words[..] {
            ["CONFLICT", "overwritten", hex] => from_hex(hex).map(|key| Error::Conflict(Conflict::Overwritten(key))),
            ["CONFLICT", "pivot", "self"] => Some(Error::Conflict(Conflict::PivotSelf)),
            ["CONFLICT", "pivot", number] => number.parse().ok().map(|number| Error::Conflict(Conflict::Pivot(number))),
            ["FULL", limit] => Some(Error::Full(limit.to_string())),
            ["STORE", "stopped"] => Some(Error::Stopped),
            _ => None,
        }
        .unwrap_or(Error::Refused(text))
    }

    /// Does `transact` begin again where this ended a try? Then nothing was written.
    pub(crate) fn begins_again(&self) -> bool {
        matches!(self, Error::Conflict(_) | Error::Unreachable(_)) || *self == Error::Full("transactions".into())
    }
}

fn from_hex(text: &str) -> Option<Vec<u8>> {
    text.as_bytes().chunks(2).map(|digits| u8::from_str_radix(std::str::from_utf8(digits).ok()?, 16).ok()).collect()
}

impl fmt::Display for Error {
    fn fmt(&self, to: &mut fmt::Formatter<'_>) -> fmt::Result {
        match self {
            Error::Conflict(Conflict::Overwritten(key)) => write!(to, "conflict: {} was overwritten", key.escape_ascii()),
            Error::Conflict(Conflict::PivotSelf) => write!(to, "conflict: this transaction would be a pivot"),
            Error::Conflict(Conflict::Pivot(number)) => write!(to, "conflict: transaction {number} would be a pivot"),
            Error::Full(limit) => write!(to, "full: {limit}"),
            Error::Stopped => write!(to, "the store is stopped"),
            Error::Refused(text) => write!(to, "refused: {text}"),
            Error::Lost(text) => write!(to, "the outcome of COMMIT isn't known: {text}"),
            Error::Unreachable(text) => write!(to, "unreachable: {text}"),
            Error::Invalid(text) => write!(to, "invalid: {text}"),
        }
    }
}

impl std::error::Error for Error {}
