"""A queue of jobs and its workers.

    worker.py ADDRESS put MILLISECONDS ID..    enqueues a job for each ID, whose work is to wait so long; prints `put ID`
    worker.py ADDRESS work NAME LEASE          does one job after another until it is ended; the lease is in milliseconds; prints
                                               `NAME took ID`, then `NAME did ID`, or `NAME late ID` where another took it since

A worker has a job until its lease ends; then another may take it. So a worker may be killed at any moment, and its job is done again.
**Work outside the store is done at least once**, and its result is written once. A lease is to be longer than the longest job: a worker
that is late has worked in vain. A job that ends each of its workers comes back each time; whoever minds counts the tries in its value.

The store has no clock. Times are those of the machines that put and take jobs, and the premise is that their clocks differ by
far less than a lease. Where they differ by more, jobs are taken too late, or too early, so that their work is done twice. Even then no
result is written twice: that is decided by the job's key, which moves on each time it is taken, and by no clock.

Keys: `job:DUE:ID` holds the work; the job may be taken from DUE on, in milliseconds since 1970 with 15 digits. Taking it moves it to the
end of the lease, and finishing it deletes it. `put:ID` and `done:ID` say that this came to pass, `done:ID` with the result; delete
both in one transaction, once nobody puts this ID again. `finished:NAME` counts for each worker, so that workers don't meet in one key.
A worker's name is its own: no two have the same.
"""
import collections
import sys
import time

import ssikvd

IDLE_MAX = 0.5    # seconds that a worker waits at most before it looks for a job again

Job = collections.namedtuple("Job", ["place", "id", "payload"])


class Late(Exception):
    """Another worker has taken the job since."""


def key_of(due, job_id):
    return f"job:{due:015}:{job_id}"


def now():
    return time.time_ns() // 1_000_000


def put(store, job_id, payload):
    """Enqueues the job, unless it was put before. It may be taken at once."""
    store.once(f"put:{job_id}", lambda transaction: transaction.set(key_of(now(), job_id), payload))


def take(transaction, lease):
    """Takes the job that has been due for longest, for so many milliseconds; None where none is due.

    Of two workers that take the same at once, one is refused, and begins again."""
    begun = now()    # in this try, so that the lease is whole
    for place, payload in transaction.range("job:", key_of(begun, ""), 1):
        job_id = place.decode().split(":", 2)[2]
        job = Job(key_of(begun + lease, job_id), job_id, payload)
        transaction.delete(place)
        transaction.set(job.place, payload)
        return job
    return None


def finish(store, job, worker, result):
    """Writes the result, and deletes the job, unless another worker has taken it since. Did it?"""
    def work(transaction):
        if transaction.get(job.place) is None:
            raise Late
        transaction.delete(job.place)
        count = int(transaction.get(f"finished:{worker}") or b"0")
        transaction.set(f"finished:{worker}", str(count + 1))
        return result

    try:
        return store.once(f"done:{job.id}", work) == result.encode()    # it may hold the result of another
    except Late:
        return False


def do(job, worker):
    """The work itself. It may be done again after this worker has died, so it does no harm twice."""
    time.sleep(int(job.payload) / 1_000)
    return f"done by {worker}"


def work_once(store, worker, lease):
    """Takes a job and does it. Was there one?"""
    job = store.transact(lambda transaction: take(transaction, lease))
    if job is not None:
        print(worker, "took", job.id, flush=True)
        is_done = finish(store, job, worker, do(job, worker))
        print(worker, "did" if is_done else "late", job.id, flush=True)
    return job is not None


def work(store, worker, lease):
    """Works until the process is ended, and looks less often while there is nothing to do."""
    pause = 0.01
    while True:
        try:
            has_worked = work_once(store, worker, lease)
        except (ssikvd.Conflict, ssikvd.Full, ssikvd.Stopped, ssikvd.Unreachable, ssikvd.Lost) as error:
            print(f"{worker}: {error}", file=sys.stderr, flush=True)    # a job that it may hold comes back once its lease has ended
            has_worked = False
        pause = 0.01 if has_worked else min(2 * pause, IDLE_MAX)
        if not has_worked:
            time.sleep(pause)


def main():
    address, what, *words = sys.argv[1:]
    with ssikvd.connect(address, connections=1) as store:
        if what == "work":
            work(store, words[0], int(words[1]))
        for job_id in words[1:]:
            put(store, job_id, words[0])
            print("put", job_id, flush=True)


if __name__ == "__main__":
    try:
        main()
    except ssikvd.Error as error:
        sys.exit(f"worker: {error}")
