//! A queue of jobs and its workers.
//!
//! ```text
//! worker ADDRESS put MILLISECONDS ID..    enqueues a job for each ID, whose work is to wait so long; prints `put ID`
//! worker ADDRESS work NAME LEASE          does one job after another until it is ended; the lease is in milliseconds; prints
//!                                         `NAME took ID`, then `NAME did ID`, or `NAME late ID` where another took it since
//! ```
//!
//! A worker has a job until its lease ends; then another may take it. So a worker may be killed at any moment, and its job is done again.
//! **Work outside the store is done at least once**, and its result is written once. A lease is to be longer than the longest job: a worker
//! that is late has worked in vain. A job that ends each of its workers comes back each time; whoever minds counts the tries in its value.
//!
//! The store has no clock. Times are those of the machines that put and take jobs, and the premise is that their clocks differ by
//! far less than a lease. Where they differ by more, jobs are taken too late, or too early, so that their work is done twice. Even then no
//! result is written twice: that is decided by the job's key, which moves on each time it is taken, and by no clock.
//!
//! Keys: `job:DUE:ID` holds the work; the job may be taken from DUE on, in milliseconds since 1970 with 15 digits. Taking it moves it to
//! the end of the lease, and finishing it deletes it. `put:ID` and `done:ID` say that this came to pass, `done:ID` with the result; delete
//! both in one transaction, once nobody puts this ID again. `finished:NAME` counts for each worker, so that workers don't meet in one key.
//! A worker's name is its own: no two have the same.
use ssikvd::{connect_with, Error, Options, Store, Transaction};
use std::fmt;
use std::thread;
use std::time::{Duration, SystemTime, UNIX_EPOCH};

type Failure = Box<dyn std::error::Error>;

const PAUSE_MIN: Duration = Duration::from_millis(10);
/// That a worker waits at most before it looks for a job again.
const PAUSE_MAX: Duration = Duration::from_millis(500);

/// Another worker has taken the job since.
#[derive(Debug)]
struct Late;

impl fmt::Display for Late {
    fn fmt(&self, to: &mut fmt::Formatter<'_>) -> fmt::Result {
        write!(to, "another worker has the job")
    }
}

impl std::error::Error for Late {}

/// A job that a worker has, while it stands at its place.
struct Job {
    place: String,
    id: String,
    payload: String,
}

/// A worker with its name, and for how many milliseconds it takes a job.
struct Worker<'a> {
    store: &'a Store,
    name: &'a str,
    lease: u128,
}

fn key_of(due: u128, id: &str) -> String {
    format!("job:{due:015}:{id}")
}

fn now() -> u128 {
    SystemTime::now().duration_since(UNIX_EPOCH).unwrap_or_default().as_millis()
}

fn text_of(bytes: &[u8]) -> String {
    String::from_utf8_lossy(bytes).into_owned()
}

/// Does it pass? Else it is a fault of this program.
fn passes(failure: &Failure) -> bool {
    matches!(failure.downcast_ref(), Some(Error::Conflict(_) | Error::Full(_) | Error::Stopped | Error::Unreachable(_) | Error::Lost(_)))
}

/// Enqueues the job, unless it was put before. It may be taken at once.
fn put(store: &Store, id: &str, payload: &str) -> Result<(), Error> {
    let work = |transaction: &Transaction| transaction.set(key_of(now(), id), payload).map(|()| Vec::new());
    store.once(format!("put:{id}"), work).map(drop)
}

impl Worker<'_> {
    /// Takes the job that has been due for longest; `None` where none is due.
    ///
    /// Of two workers that take the same at once, one is refused, and begins again.
    fn take(&self, transaction: &Transaction) -> Result<Option<Job>, Error> {
        let begun = now(); // in this try, so that the lease is whole
        let Some(due) = transaction.range("job:", key_of(begun, "")).limit(1).next() else {
            return Ok(None);
        };
        let (place, payload) = due?;
        let id = text_of(&place).splitn(3, ':').skip(2).collect::<String>();
        let job = Job { place: key_of(begun + self.lease, &id), id, payload: text_of(&payload) };
        transaction.delete(&place)?;
        transaction.set(&job.place, &job.payload)?;
        Ok(Some(job))
    }

    /// Writes the result, and deletes the job, unless another worker has taken it since. Did it?
    fn finish(&self, job: &Job, result: &str) -> Result<bool, Failure> {
        let counter = format!("finished:{}", self.name);
        let found = self.store.once(format!("done:{}", job.id), |transaction| {
            if transaction.get(&job.place)?.is_none() {
                return Err(Failure::from(Late));
            }
            transaction.delete(&job.place)?;
            let count = transaction.get(&counter)?.map_or(Ok(0), |count| text_of(&count).parse::<u64>())?;
            transaction.set(&counter, (count + 1).to_string())?;
            Ok(result.as_bytes().to_vec())
        });
        match found {
            Ok(found) => Ok(found == result.as_bytes()), // it may be that of another
            Err(failure) if failure.is::<Late>() => Ok(false),
            Err(failure) => Err(failure),
        }
    }

    /// The work itself. It may be done again after this worker has died, so it does no harm twice.
    fn perform(&self, job: &Job) -> Result<String, Failure> {
        thread::sleep(Duration::from_millis(job.payload.parse()?));
        Ok(format!("done by {}", self.name))
    }

    /// Takes a job and does it. Was there one?
    fn work_once(&self) -> Result<bool, Failure> {
        let Some(job) = self.store.transact(|transaction| self.take(transaction))? else {
            return Ok(false);
        };
        println!("{} took {}", self.name, job.id);
        let is_done = self.finish(&job, &self.perform(&job)?)?;
        println!("{} {} {}", self.name, if is_done { "did" } else { "late" }, job.id);
        Ok(true)
    }

    /// Works until the process is ended, and looks less often while there is nothing to do. The error is a fault of this program.
    fn work(&self) -> Result<(), Failure> {
        let mut pause = PAUSE_MIN;
        loop {
            let has_worked = match self.work_once() {
                Err(failure) if passes(&failure) => {
                    eprintln!("{}: {failure}", self.name); // a job that it may hold comes back once its lease has ended
                    false
                }
                other => other?,
            };
            if has_worked {
                pause = PAUSE_MIN;
            } else {
                thread::sleep(pause);
                pause = PAUSE_MAX.min(2 * pause);
            }
        }
    }
}

fn main() -> Result<(), Failure> {
    let words: Vec<String> = std::env::args().skip(1).collect();
    let store = connect_with(&words[0], Options { connections: 1, ..Options::default() })?;
    if words[1] == "work" {
        Worker { store: &store, name: &words[2], lease: words[3].parse()? }.work()?;
    }
    for id in &words[3..] {
        put(&store, id, &words[2])?;
        println!("put {id}");
    }
    Ok(())
}
