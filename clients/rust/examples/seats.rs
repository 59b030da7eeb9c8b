//! A web application that reserves seats, over std alone: `cargo run --example seats ADDRESS PORT`. From a shell:
//!
//! ```text
//! curl -d name=ann -H 'Idempotency-Key: 1' http://127.0.0.1:PORT/seats/3B
//!
//! GET  /seats          200: each seat, `free` or `taken`, as one state of the store
//! POST /seats/SEAT     reserves the seat for the form's `name`; the header `Idempotency-Key` names the request, and is new for each
//!                      201: it is reserved. 409: it is taken. 404: there is no such seat. 400: no name, or no key.
//!                      422: the key came before with another seat or name
//! ```
//!
//! Whoever repeats a request with its key gets the answer that the first one got, and no second seat. Either may answer also
//!
//! ```text
//! 503    with Retry-After: the store is full, stopped or not to be reached, or conflicts went on until the deadline. Nothing was
//!        written
//! 504    it isn't known whether the seat is reserved: repeat the request with the same key, and tell nobody that it failed
//! ```
//!
//! Keys: `seat:SEAT` holds the name, and isn't there while the seat is free. `done:KEY` holds the status that was answered, the seat and
//! the name; delete it once nobody repeats the request any more.
//!
//! HTTP is read by hand, one request for each connection and as many at once as there are threads. A service that others see has a web
//! framework for that; `page_of` and what it calls stay as they are.
use ssikvd::{connect_with, Error, Options, Store, Transaction};
use std::io::{self, BufRead, BufReader, Read, Write};
use std::net::{TcpListener, TcpStream};
use std::thread;
use std::time::Duration;

/// Of a name, and of an idempotency key.
const BYTES_MAX: usize = 100;
const HEAD_MAX: u64 = 8_192;
const FORM_MAX: u64 = 4_096;
/// Those of all processes together should be at most 64. As many threads use them.
const CONNECTIONS: usize = 16;
/// That a visitor waits, before there is a page that says so.
const DEADLINE: Duration = Duration::from_secs(2);
const PATIENCE: Duration = Duration::from_secs(10);

/// What counts of a request: its first line, its idempotency key and its form; `None` of one that is too long.
#[derive(Default)]
struct Request {
    line: String,
    key: String,
    form: Option<String>,
}

/// A status with its reason, the type of the text, and the text.
struct Answer(&'static str, &'static str, String);

fn page(status: &'static str, values: &[(String, &str)]) -> Answer {
    let fields: Vec<_> = values.iter().map(|(key, value)| format!("{}:{}", quoted(key), quoted(value))).collect();
    Answer(status, "application/json", format!("{{{}}}", fields.join(",")))
}

fn says(status: &'static str, text: &str) -> Answer {
    Answer(status, "text/plain; charset=utf-8", format!("{text}\n"))
}

/// A text as JSON.
fn quoted(text: &str) -> String {
    let escaped = text.chars().map(|each| match each {
        '"' | '\\' | '\0'..='\x1f' => format!("\\u{:04x}", u32::from(each)),
        _ => each.into(),
    });
    format!("\"{}\"", escaped.collect::<String>())
}

/// Each seat there is.
fn seats() -> impl Iterator<Item = String> {
    (1..=10).flat_map(|row| "ABCDEF".chars().map(move |place| format!("{row}{place}")))
}

/// The keys of the seats that are taken.
fn taken(transaction: &Transaction) -> Result<Vec<Vec<u8>>, Error> {
    transaction.range("seat:", "seat;").map(|pair| Ok(pair?.0)).collect()
}

/// Reserves the seat, unless it is taken. Gives the status to answer, and what was asked.
fn reserve(transaction: &Transaction, seat: &str, name: &str) -> Result<Vec<u8>, Error> {
    let place = format!("seat:{seat}");
    if transaction.get(&place)?.is_some() {
        return Ok(format!("409 {seat} {name}").into_bytes());
    }
    transaction.set(&place, name)?;
    Ok(format!("201 {seat} {name}").into_bytes())
}

fn list(store: &Store) -> Result<Answer, Error> {
    let taken = store.transact(taken)?;
    let state = |seat: &str| if taken.contains(&format!("seat:{seat}").into_bytes()) { "taken" } else { "free" };
    Ok(page("200 OK", &seats().map(|seat| (seat.clone(), state(&seat))).collect::<Vec<_>>()))
}

fn post(store: &Store, seat: &str, request: &Request) -> Result<Answer, Error> {
    let Some(form) = &request.form else {
        return Ok(says("413 Content Too Large", "The form is too long."));
    };
    let name = form.split('&').find_map(|field| unescaped(field.strip_prefix("name=")?)).unwrap_or_default();
    if seats().all(|one| one != seat) {
        return Ok(says("404 Not Found", "There is no such seat."));
    }
    if ![&request.key, &name].iter().all(|text| (1..=BYTES_MAX).contains(&text.len())) {
        let text = format!("An Idempotency-Key and a name are needed, each of at most {BYTES_MAX} bytes.");
        return Ok(says("400 Bad Request", &text));
    }
    let found = store.once(format!("done:{}", request.key), |transaction| reserve(transaction, seat, &name))?;
    Ok(match String::from_utf8_lossy(&found).split_once(' ') {
        Some(("201", asked)) if asked == format!("{seat} {name}") => page("201 Created", &[("seat".into(), seat), ("name".into(), &name)]),
        Some(("409", asked)) if asked == format!("{seat} {name}") => says("409 Conflict", "The seat is taken."),
        _ => says("422 Unprocessable Content", "This Idempotency-Key came before with another seat or name."),
    })
}

fn page_of(store: &Store, request: &Request) -> Result<Answer, Error> {
    let mut words = request.line.split_whitespace();
    let (method, target) = (words.next().unwrap_or(""), words.next().unwrap_or(""));
    let path = target.split('?').next().unwrap_or("");
    match (method, path.strip_prefix("/seats/")) {
        ("GET", None) if path == "/seats" => list(store),
        ("POST", Some(seat)) => post(store, seat, request),
        _ => Ok(says("404 Not Found", "There is no such page.")),
    }
}

/// What to answer in place of a page. `Invalid` and `Refused` are faults of this program.
fn answer_to(error: &Error) -> Answer {
    eprintln!("{error}");
    match error {
        Error::Lost(_) => says("504 Gateway Timeout", "It isn't known whether this was done. Repeat it with the same Idempotency-Key."),
        Error::Conflict(_) | Error::Full(_) | Error::Stopped | Error::Unreachable(_) => {
            says("503 Service Unavailable", "Nothing was done. Repeat the request later.")
        }
        _ => says("500 Internal Server Error", "This program has a fault."),
    }
}

/// The text of a part of a form, where `+` and `%41` stand for other bytes; `None` where it isn't well formed.
fn unescaped(part: &str) -> Option<String> {
    let (mut bytes, mut rest) = (Vec::new(), part.bytes());
    while let Some(byte) = rest.next() {
        bytes.push(match byte {
            b'+' => b' ',
            b'%' => u8::from_str_radix(std::str::from_utf8(&[rest.next()?, rest.next()?]).ok()?, 16).ok()?,
            byte => byte,
        });
    }
    String::from_utf8(bytes).ok()
}

/// Reads a request.
fn read(stream: &TcpStream) -> io::Result<Request> {
    let (mut from, mut request, mut length) = (BufReader::new(stream.take(HEAD_MAX + FORM_MAX)), Request::default(), 0);
    from.read_line(&mut request.line)?;
    loop {
        let mut line = String::new();
        from.read_line(&mut line)?;
        let Some((name, value)) = line.split_once(':') else {
            break;
        };
        match name.to_ascii_lowercase().as_str() {
            "idempotency-key" => request.key = value.trim().into(),
            "content-length" => length = value.trim().parse().unwrap_or(0),
            _ => {}
        }
    }
    if length <= FORM_MAX {
        let mut form = String::new();
        from.take(length).read_to_string(&mut form)?;
        request.form = Some(form);
    }
    Ok(request)
}

/// Reads one request and answers it. An error ends the connection alone.
fn serve(store: &Store, mut stream: TcpStream) -> io::Result<()> {
    stream.set_read_timeout(Some(PATIENCE))?;
    stream.set_write_timeout(Some(PATIENCE))?;
    let Answer(status, kind, text) = page_of(store, &read(&stream)?).unwrap_or_else(|error| answer_to(&error));
    let again = if status.starts_with("503") { "Retry-After: 1\r\n" } else { "" };
    let length = text.len();
    write!(stream, "HTTP/1.1 {status}\r\nContent-Type: {kind}\r\nContent-Length: {length}\r\nConnection: close\r\n{again}\r\n{text}")
}

fn main() -> Result<(), Box<dyn std::error::Error>> {
    let words: Vec<String> = std::env::args().skip(1).collect();
    let second = Duration::from_secs(1);
    let options = Options { connections: CONNECTIONS, connect_timeout: second, reply_timeout: DEADLINE, deadline: DEADLINE };
    let store = connect_with(&words[0], options)?;
    let listener = TcpListener::bind(format!("127.0.0.1:{}", words[1]))?;
    println!("listening {}", listener.local_addr()?);
    thread::scope(|scope| {
        for _ in 0..CONNECTIONS {
            scope.spawn(|| {
                for stream in listener.incoming().flatten() {
                    if let Err(error) = serve(&store, stream) {
                        eprintln!("{error}");
                    }
                }
            });
        }
    });
    Ok(())
}
