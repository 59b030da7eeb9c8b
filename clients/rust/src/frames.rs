//! Frames, keys and limits. Nothing here touches a socket.
use crate::Error;

pub(crate) const KEY_MAX: usize = 256;
pub(crate) const VALUE_MAX: usize = 16_384;
pub(crate) const PAIRS_MAX: usize = 128;
const LINE_MAX: usize = 600;

/// A reply. An array holds key, value, key, value.
#[derive(Debug, PartialEq, Eq)]
pub(crate) enum Reply {
    Done(String),
    Refused(String),
    Number(u64),
    Value(Option<Vec<u8>>),
    Array(Vec<Vec<u8>>),
}

/// Why there is no reply yet: more bytes are wanted, or no reply begins with these.
#[derive(Debug, PartialEq, Eq)]
pub(crate) enum Stop {
    More,
    Bad,
}

/// The request of these parts.
pub(crate) fn encode(parts: &[&[u8]]) -> Vec<u8> {
    let mut frame = format!("*{}\r\n", parts.len()).into_bytes();
    for part in parts {
        frame.extend(format!("${}\r\n", part.len()).bytes().chain(part.iter().copied()).chain(*b"\r\n"));
    }
    frame
}

/// Bytes that came in, from which replies are taken.
pub(crate) struct Received<'a>(pub(crate) &'a [u8]);

impl<'a> Received<'a> {
    pub(crate) fn reply(&mut self) -> Result<Reply, Stop> {
        let (kind, text) = self.line()?;
        match kind {
            b'+' => Ok(Reply::Done(text.into())),
            b'-' => Ok(Reply::Refused(text.into())),
            b':' => Ok(Reply::Number(number(text, u64::MAX)?)),
            b'$' if text == "-1" => Ok(Reply::Value(None)),
            b'$' => Ok(Reply::Value(Some(self.bulk(text)?))),
            b'*' => (0..number(text, 2 * PAIRS_MAX as u64)?).map(|_| self.value()).collect::<Result<_, _>>().map(Reply::Array),
            _ => Err(Stop::Bad),
        }
    }

    fn value(&mut self) -> Result<Vec<u8>, Stop> {
        if let Reply::Value(Some(value)) = self.reply()? {
            Ok(value)
        } else {
            Err(Stop::Bad)
        }
    }

    fn bulk(&mut self, text: &str) -> Result<Vec<u8>, Stop> {
        let bytes = self.take(number(text, VALUE_MAX as u64)? as usize)?.to_vec();
        (self.take(2)? == b"\r\n").then_some(bytes).ok_or(Stop::Bad)
    }

    /// The kind and the text of a line.
    fn line(&mut self) -> Result<(u8, &'a str), Stop> {
        match self.0.windows(2).take(LINE_MAX).position(|pair| pair == b"\r\n") {
            Some(end) if end > 0 => {
                let line = self.take(end + 2)?;
                Ok((line[0], std::str::from_utf8(&line[1..end]).map_err(|_| Stop::Bad)?))
            }
            None if self.0.len() <= LINE_MAX => Err(Stop::More),
            _ => Err(Stop::Bad),
        }
    }

    fn take(&mut self, count: usize) -> Result<&'a [u8], Stop> {
        let (front, rest) = self.0.split_at(count.min(self.0.len()));
        self.0 = rest;
        (front.len() == count).then_some(front).ok_or(Stop::More)
    }
}

fn number(text: &str, most: u64) -> Result<u64, Stop> {
    let is_number = !text.is_empty() && text.bytes().all(|digit| digit.is_ascii_digit());
    text.parse().ok().filter(|number| is_number && *number <= most).ok_or(Stop::Bad)
}

/// The bytes of a key, or with `least` 0 of a bound.
pub(crate) fn key_of(key: &[u8], least: usize) -> Result<&[u8], Error> {
    let text = || Error::Invalid(format!("a key has 1 to {KEY_MAX} bytes, this one has {}", key.len()));
    (least..=KEY_MAX).contains(&key.len()).then_some(key).ok_or_else(text)
}

pub(crate) fn value_of(value: &[u8]) -> Result<&[u8], Error> {
    let text = || Error::Invalid(format!("a value has at most {VALUE_MAX} bytes, this one has {}", value.len()));
    (value.len() <= VALUE_MAX).then_some(value).ok_or_else(text)
}

/// The least key above this one; `None` above the last of all.
pub fn after(key: impl AsRef<[u8]>) -> Option<Vec<u8>> {
    let key = key.as_ref();
    if key.len() < KEY_MAX {
        Some([key, b"\0"].concat())
    } else {
        end_of_prefix(key)
    }
}

/// The least key above all that begin with the prefix; `None` where there is none.
pub fn end_of_prefix(prefix: impl AsRef<[u8]>) -> Option<Vec<u8>> {
    let prefix = prefix.as_ref();
    let last = prefix.iter().rposition(|byte| *byte != 0xff)?;
    let mut end = prefix[..=last].to_vec();
    end[last] += 1;
    Some(end)
}

#[cfg(test)]
mod tests;
