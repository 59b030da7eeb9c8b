//! A ledger: accounts, transfers in double entry, no overdraft.
//!
//! ```text
//! ledger ADDRESS transfer                          makes a transfer of each line of its input, `ID FROM TO AMOUNT`;
//!                                                  prints `ID ANSWER` for each
//! ledger ADDRESS balances                          prints `ACCOUNT BALANCE` of each account, all of one moment
//! ledger ADDRESS statement ACCOUNT FIRST COUNT     prints so many entries from the first on,
//!                                                  each as `NUMBER AMOUNT BALANCE ID OTHER`
//! ```
//!
//! The answers: `moved`. `uncovered`: the account has less. `differs`: this ID was another transfer. `invalid`: a name, an amount, one
//! account twice. `later`: nothing was written. `unknown`: nobody knows. After `later` and `unknown` the status is 1. Give the same lines
//! again: what was moved isn't moved twice, and has the answer that it had.
//!
//! Amounts are whole cents. Money comes from the account `outside` and goes there; it alone may be below zero. So all balances add up to
//! zero.
//!
//! Keys: `account:NAME` holds the balance and how many entries there are, `entry:NAME:NUMBER` the amount, the balance behind it, the ID and
//! the other account, `transfer:ID` the answer and what was asked. A transfer writes five of them in one transaction.
//!
//! Transfers of one account meet in its key, so that all but one of them begin again; those of other accounts don't. `balances` reads all
//! accounts in one transaction, which sees at most 32,767 of them; a statement costs what it prints, however long the account is.
use ssikvd::{connect_with, Error, Options, Store, Transaction};
use std::process::ExitCode;

type Failure = Box<dyn std::error::Error>;

const OUTSIDE: &str = "outside";
const AMOUNT_MAX: i64 = 999_999_999_999;

/// What one asks for.
struct Transfer<'a> {
    id: &'a str,
    source: &'a str,
    target: &'a str,
    amount: i64,
}

/// Is this a name? It has no colon, so that no account's entries stand among those of another.
fn is_name(text: &str) -> bool {
    (1..=64).contains(&text.len()) && text.bytes().all(|byte| byte.is_ascii_alphanumeric() || b"_-".contains(&byte))
}

/// A number of cents above zero, without a zero before it.
fn amount_of(text: &str) -> Option<i64> {
    let is_number = text.bytes().all(|byte| byte.is_ascii_digit()) && !text.starts_with('0');
    text.parse().ok().filter(|amount| is_number && *amount <= AMOUNT_MAX)
}

impl<'a> Transfer<'a> {
    /// The transfer of a line's words; `None` where they are those of none.
    fn of(words: &[&'a str]) -> Option<Self> {
        let &[id, source, target, amount] = words else {
            return None;
        };
        let is_valid = [id, source, target].into_iter().all(is_name) && source != target;
        amount_of(amount).filter(|_| is_valid).map(|amount| Transfer { id, source, target, amount })
    }

    /// All but the ID, as it is kept with the answer.
    fn asked(&self) -> String {
        format!("{} {} {}", self.source, self.target, self.amount)
    }
}

fn text_of(bytes: &[u8]) -> String {
    String::from_utf8_lossy(bytes).into_owned()
}

/// The balance, and how many entries there are; zero of both for an account that nobody has used.
fn balance_of(transaction: &Transaction, account: &str) -> Result<(i64, u64), Failure> {
    let value = transaction.get(format!("account:{account}"))?.map_or("0 0".into(), |value| text_of(&value));
    let (balance, entries) = value.split_once(' ').ok_or("an account has no count")?;
    Ok((balance.parse()?, entries.parse()?))
}

/// Adds an entry to the account, below zero where money leaves it.
fn post(transaction: &Transaction, account: &str, amount: i64, id: &str, other: &str) -> Result<(), Failure> {
    let (before, entries) = balance_of(transaction, account)?;
    let (balance, number) = (before + amount, entries + 1);
    transaction.set(format!("account:{account}"), format!("{balance} {number}"))?;
    transaction.set(format!("entry:{account}:{number:010}"), format!("{amount} {balance} {id} {other}"))?;
    Ok(())
}

/// Makes both entries, unless the source has less. Gives the answer, and what was asked.
fn make(transaction: &Transaction, transfer: &Transfer) -> Result<Vec<u8>, Failure> {
    let Transfer { id, source, target, amount } = transfer;
    if *source != OUTSIDE && balance_of(transaction, source)?.0 < *amount {
        return Ok(format!("uncovered {}", transfer.asked()).into_bytes());
    }
    post(transaction, source, -amount, id, target)?;
    post(transaction, target, *amount, id, source)?;
    Ok(format!("moved {}", transfer.asked()).into_bytes())
}

/// The answer to a transfer, made at most once however often it is asked for.
fn answer(store: &Store, words: &[&str]) -> Result<String, Failure> {
    let Some(transfer) = Transfer::of(words) else {
        return Ok("invalid".into());
    };
    let found = match store.once(format!("transfer:{}", transfer.id), |transaction| make(transaction, &transfer)) {
        Ok(found) => text_of(&found),
        Err(failure) => return unsettled(&transfer, failure),
    };
    let (answer, asked) = found.split_once(' ').ok_or("a transfer has no answer")?;
    Ok(if asked == transfer.asked() { answer } else { "differs" }.into())
}

/// The answer where there is none yet. The error is a fault of this program.
fn unsettled(transfer: &Transfer, failure: Failure) -> Result<String, Failure> {
    match failure.downcast_ref() {
        Some(Error::Lost(_)) => Ok("unknown".into()),
        Some(error @ (Error::Conflict(_) | Error::Full(_) | Error::Stopped | Error::Unreachable(_))) => {
            eprintln!("{}: {error}", transfer.id);
            Ok("later".into())
        }
        _ => Err(failure),
    }
}

/// Makes the transfers of the input one after another. Are all of them settled?
fn transfers(store: &Store) -> Result<bool, Failure> {
    let mut is_settled = true;
    for line in std::io::stdin().lines() {
        let line = line?;
        let words: Vec<&str> = line.split(' ').collect();
        let said = answer(store, &words)?;
        println!("{} {said}", words[0]);
        is_settled &= said != "later" && said != "unknown";
    }
    Ok(is_settled)
}

/// Each account with its balance. They are of one snapshot, so they add up to zero beside any transfer.
fn balances(transaction: &Transaction) -> Result<Vec<String>, Error> {
    let row = |(key, value): (Vec<u8>, Vec<u8>)| {
        let value = text_of(&value);
        format!("{} {}", text_of(&key["account:".len()..]), value.split(' ').next().unwrap_or(""))
    };
    transaction.range("account:", "account;").map(|pair| pair.map(row)).collect()
}

/// So many entries of the account from the first, each with its number.
fn statement(transaction: &Transaction, account: &str, first: u64, count: usize) -> Result<Vec<String>, Error> {
    let prefix = format!("entry:{account}:");
    let row = |(key, value): (Vec<u8>, Vec<u8>)| format!("{} {}", text_of(&key[prefix.len()..]).trim_start_matches('0'), text_of(&value));
    let pairs = transaction.range(format!("{prefix}{first:010}"), format!("entry:{account};")).limit(count);
    pairs.map(|pair| pair.map(row)).collect()
}

fn main() -> Result<ExitCode, Failure> {
    let words: Vec<String> = std::env::args().skip(1).collect();
    let store = connect_with(&words[0], Options { connections: 1, ..Options::default() })?;
    let rows = match words[1].as_str() {
        "transfer" => return Ok(if transfers(&store)? { ExitCode::SUCCESS } else { ExitCode::FAILURE }),
        "balances" => store.transact(balances)?,
        _ => {
            let (first, count) = (words[3].parse()?, words[4].parse()?);
            store.transact(|transaction| statement(transaction, &words[2], first, count))?
        }
    };
    for row in rows {
        println!("{row}");
    }
    Ok(ExitCode::SUCCESS)
}
