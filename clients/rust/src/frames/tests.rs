//! The frames of ../../frames.txt.
use super::{after, encode, end_of_prefix, Received, Reply, Stop};

fn bytes_of(word: &str) -> Vec<u8> {
    if word == "-" {
        return Vec::new();
    }
    (0..word.len()).step_by(2).map(|at| u8::from_str_radix(&word[at..at + 2], 16).unwrap()).collect()
}

/// The rows of a kind: the words before `=`, and those after it.
fn rows(kind: &str) -> Vec<(Vec<String>, Vec<String>)> {
    let text = std::fs::read_to_string(concat!(env!("CARGO_MANIFEST_DIR"), "/../frames.txt")).unwrap();
    let words = |part: &str| part.split_whitespace().map(String::from).collect::<Vec<_>>();
    let rows: Vec<_> = text
        .lines()
        .filter_map(|line| line.strip_prefix(kind)?.strip_prefix(' '))
        .map(|line| line.split_once(" =").map_or((words(line), Vec::new()), |(left, right)| (words(left), words(right))))
        .collect();
    assert!(!rows.is_empty());
    rows
}

fn due(words: &[String]) -> Reply {
    let parts = words[1..].iter().map(|word| bytes_of(word)).collect::<Vec<_>>();
    match words[0].as_str() {
        "done" => Reply::Done(String::from_utf8(parts[0].clone()).unwrap()),
        "refused" => Reply::Refused(String::from_utf8(parts[0].clone()).unwrap()),
        "value" => Reply::Value(Some(parts[0].clone())),
        "none" => Reply::Value(None),
        _ => Reply::Array(parts),
    }
}

#[test]
fn requests() {
    for (parts, frame) in rows("request") {
        let parts: Vec<_> = parts.iter().map(|part| bytes_of(part)).collect();
        let lent: Vec<&[u8]> = parts.iter().map(Vec::as_slice).collect();
        assert_eq!(encode(&lent), bytes_of(&frame[0]));
    }
}

#[test]
fn replies() {
    for (frame, words) in rows("reply") {
        let frame = bytes_of(&frame[0]);
        let reply = if words[0] == "number" { Reply::Number(words[1].parse().unwrap()) } else { due(&words) };
        let whole = [&frame[..], b"+OK\r\n"].concat();
        let mut received = Received(&whole);
        assert_eq!((received.reply(), received.0), (Ok(reply), &b"+OK\r\n"[..]));
        for length in 0..frame.len() {
            assert_eq!(Received(&frame[..length]).reply(), Err(Stop::More));
        }
    }
}

#[test]
fn what_is_no_reply() {
    for (frame, _) in rows("bad") {
        assert_eq!(Received(&bytes_of(&frame[0])).reply(), Err(Stop::Bad));
    }
    assert_eq!(Received(&[b"+".to_vec(), vec![b'a'; 1_000]].concat()).reply(), Err(Stop::Bad));
}

#[test]
fn keys() {
    assert_eq!(after("a"), Some(b"a\0".to_vec()));
    assert_eq!(after([b'a'; 256]), Some([vec![b'a'; 255], vec![b'b']].concat()));
    assert_eq!(after([vec![b'a'], vec![0xff; 255]].concat()), Some(b"b".to_vec()));
    assert_eq!(after([0xff; 256]), None);
    assert_eq!(end_of_prefix("user:"), Some(b"user;".to_vec()));
    assert_eq!(end_of_prefix(b"a\xff"), Some(b"b".to_vec()));
    assert_eq!(end_of_prefix(""), None);
    assert_eq!(end_of_prefix(b"\xff\xff"), None);
}
