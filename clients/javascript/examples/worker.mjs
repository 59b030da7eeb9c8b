/**
 * A queue of jobs and its workers.
 *
 *     node worker.mjs ADDRESS put MILLISECONDS ID..    enqueues a job for each ID, whose work is to wait so long; prints `put ID`
 *     node worker.mjs ADDRESS work NAME LEASE          does one job after another until it is ended; the lease is in milliseconds; prints
 *                                                      `NAME took ID`, then `NAME did ID`, or `NAME late ID` where another took it since
 *
 * A worker has a job until its lease ends; then another may take it. So a worker may be killed at any moment, and its job is done again.
 * **Work outside the store is done at least once**, and its result is written once. A lease is to be longer than the longest job: a worker
 * that is late has worked in vain. A job that ends each of its workers comes back each time; whoever minds counts the tries in its value.
 *
 * The store has no clock. Times are those of the machines that put and take jobs, and the premise is that their clocks differ by
 * far less than a lease. Where they differ by more, jobs are taken too late, or too early, so that their work is done twice. Even then no
 * result is written twice: that is decided by the job's key, which moves on each time it is taken, and by no clock.
 *
 * Keys: `job:DUE:ID` holds the work; the job may be taken from DUE on, in milliseconds since 1970 with 15 digits. Taking it moves it to the
 * end of the lease, and finishing it deletes it. `put:ID` and `done:ID` say that this came to pass, `done:ID` with the result; delete
 * both in one transaction, once nobody puts this ID again. `finished:NAME` counts for each worker, so that workers don't meet in one key.
 * A worker's name is its own: no two have the same.
 */
import { setTimeout as sleep } from 'node:timers/promises';
import { Conflict, Full, Lost, SsikvdError, Stopped, Unreachable, connect } from 'ssikvd';

const IDLE_MAX = 500; // milliseconds that a worker waits at most before it looks for a job again

/** Another worker has taken the job since. */
class Late extends Error {}

const keyOf = (due, id) => `job:${String(due).padStart(15, '0')}:${id}`;

/** Enqueues the job, unless it was put before. It may be taken at once. */
function put(store, id, payload) {
  return store.once(`put:${id}`, (transaction) => transaction.set(keyOf(Date.now(), id), payload));
}

/**
 * Takes the job that has been due for longest, for so many milliseconds; undefined where none is due. Of two workers that take the same at
 * once, one is refused, and begins again.
 */
async function take(transaction, lease) {
  const begun = Date.now(); // in this try, so that the lease is whole
  for await (const [place, payload] of transaction.range('job:', keyOf(begun, ''), 1)) {
    const id = String(place).slice(keyOf(begun, '').length);
    const job = { place: keyOf(begun + lease, id), id, payload };
    await transaction.delete(place);
    await transaction.set(job.place, payload);
    return job;
  }
}

/** Writes the result, and deletes the job, unless another worker has taken it since. Did it? */
async function finish(store, job, worker, result) {
  const write = async (transaction) => {
    if (!(await transaction.get(job.place))) throw new Late();
    await transaction.delete(job.place);
    const count = Number((await transaction.get(`finished:${worker}`)) ?? 0);
    await transaction.set(`finished:${worker}`, String(count + 1));
    return result;
  };
  try {
    return String(await store.once(`done:${job.id}`, write)) === result; // it may hold the result of another
  } catch (error) {
    if (error instanceof Late) return false;
    throw error;
  }
}

/** The work itself. It may be done again after this worker has died, so it does no harm twice. */
async function perform(job, worker) {
  await sleep(Number(job.payload));
  return `done by ${worker}`;
}

/** Takes a job and does it. Was there one? */
async function workOnce(store, worker, lease) {
  const job = await store.transact((transaction) => take(transaction, lease));
  if (!job) return false;
  console.log(`${worker} took ${job.id}`);
  const isDone = await finish(store, job, worker, await perform(job, worker));
  console.log(`${worker} ${isDone ? 'did' : 'late'} ${job.id}`);
  return true;
}

/** The same, where a job that this worker may hold comes back once its lease has ended. */
async function tryToWork(store, worker, lease) {
  try {
    return await workOnce(store, worker, lease);
  } catch (error) {
    if (![Conflict, Full, Stopped, Unreachable, Lost].some((kind) => error instanceof kind)) throw error;
    console.error(`${worker}: ${error.message}`);
    return false;
  }
}

/** Works until the process is ended, and looks less often while there is nothing to do. */
async function work(store, worker, lease) {
  for (let pause = 10; ; ) {
    const hasWorked = await tryToWork(store, worker, lease);
    pause = hasWorked ? 10 : Math.min(2 * pause, IDLE_MAX);
    if (!hasWorked) await sleep(pause);
  }
}

try {
  const [address, what, ...words] = process.argv.slice(2);
  const store = await connect(address, { connections: 1 });
  if (what === 'work') await work(store, words[0], Number(words[1]));
  for (const id of words.slice(1)) {
    await put(store, id, words[0]);
    console.log(`put ${id}`);
  }
} catch (error) {
  if (!(error instanceof SsikvdError)) throw error;
  console.error(`worker: ${error.message}`);
  process.exitCode = 1;
}
