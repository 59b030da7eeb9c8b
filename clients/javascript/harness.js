// The jobs of harness/packages.py: `node harness.js ADDRESS JOB WORDS..`. The workers are promises.
import { Conflict, Full, Refused, SsikvdError, after, connect } from 'ssikvd';

class Raised extends Error {}

function shown(error) {
  if (error instanceof Conflict) return error.key ? `Conflict key ${error.key.toString('hex')}` : `Conflict pivot ${error.pivot}`;
  if (error instanceof Full) return `Full ${error.limit}`;
  return error.constructor === Refused ? `Refused ${error.text}` : error.constructor.name;
}

/** What the steps give as text, or their error. */
async function attempt(steps) {
  try {
    return String(await steps());
  } catch (error) {
    if (!(error instanceof SsikvdError || error instanceof Raised)) throw error;
    return shown(error);
  }
}

/** Lets each worker take its turns, one after another. */
function work(workers, times, turn) {
  return Promise.all(Array.from({ length: Number(workers) }, async (_, worker) => {
    for (let number = 0; number < Number(times); number += 1) await turn(worker, number);
  }));
}

async function count(address, name, workers, times) {
  const store = await connect(address, { connections: 4, deadline: 60_000 });
  let tries = 0;
  const add = async (transaction) => {
    tries += 1;
    await transaction.set(name, String(Number((await transaction.get(name)) ?? 0) + 1));
  };
  await work(workers, times, (worker, number) => store.once(`${name}:${worker}:${number}`, add));
  console.log(`counter ${(await store.transact((transaction) => transaction.get(name))) ?? 0} tries ${tries}`);
}

async function reserve(address, room, workers, times) {
  const store = await connect(address, { deadline: 60_000 });
  const place = (second) => `${room}:${String(second).padStart(3, '0')}`;
  await work(workers, times, async (worker, number) => {
    const start = (13 * worker + 7 * number) % 60, end = start + 1 + ((worker + number) % 5);
    const found = await store.once(`by:${room}:${worker}:${number}`, async (transaction) => {
      for await (const [, value] of transaction.range(place(start + 1), `${room};`, 1)) {
        if (parseInt(value, 10) < end) return 'taken';
      }
      await transaction.set(place(end), `${start} ${worker} ${number}`);
      return 'booked';
    });
    console.log(`${worker} ${number} ${found}`);
  });
}

async function walk(address, pairs) {
  const store = await connect(address, { deadline: 60_000 });
  let total = 0, sum = 0;
  for (let at = '\0'; at !== undefined;) {
    const found = await store.transact(async (transaction) => {
      const some = [];
      for await (const pair of transaction.range(at, undefined, Number(pairs))) some.push(pair);
      return some;
    });
    for (const part of found.flat()) for (const byte of part) sum = (31 * sum + byte) % 1_000_000_007;
    total += found.length;
    at = found.length === Number(pairs) ? after(found.at(-1)[0]) : undefined;
  }
  console.log(`pairs ${total} sum ${sum}`);
}

async function errors(address) {
  const store = await connect(address), small = await connect(address, { connections: 1 });
  let kept;
  const works = {
    overwritten: async (transaction) => {
      await transaction.set('k', '1');
      await store.transact((other) => other.set('k', '2'));
    },
    pivot: async (transaction) => {
      await transaction.get('x');
      await transaction.set('y', '1');
      await store.transact((other) => Promise.all([other.get('y'), other.set('x', '1')]));
    },
    writes: async (transaction) => {
      for (let number = 0; number < 65; number += 1) await transaction.set(`w${number}`, '');
    },
    marks: async (transaction) => {
      for (let number = 0; number < 257; number += 1) await transaction.get(`m${number}`);
    },
    connections: () => small.transact((other) => other.get('k'), 0),
    'empty key': (transaction) => transaction.get(''),
    'long key': (transaction) => transaction.get('a'.repeat(257)),
    'long value': (transaction) => transaction.set('a', 'a'.repeat(16_385)),
    'zero limit': (transaction) => transaction.range('', undefined, 0).next(),
  };
  for (const [what, steps] of Object.entries(works)) {
    console.log(`${what}: ${await attempt(() => (what === 'connections' ? small : store).transact(steps, 0))}`);
  }
  await store.transact((transaction) => { kept = transaction; });
  console.log(`ended: ${await attempt(() => kept.get('k'))}`);
  console.log(`raised: ${await attempt(() => store.transact(async (transaction) => {
    await transaction.set('raised', '1');
    throw new Raised();
  }))}`);
  console.log(`after it: ${(await store.transact((transaction) => transaction.get('raised'))) ? 'kept' : 'none'}`);
  await store.close();
  console.log(`closed: ${await attempt(() => store.transact(() => undefined))}`);
}

const options = (deadline, reply) => ({ deadline: 1_000 * Number(deadline), replyTimeout: 1_000 * Number(reply) });

async function set(address, key, value, deadline, reply) {
  console.log(await attempt(async () => {
    const store = await connect(address, options(deadline, reply));
    await store.transact((transaction) => transaction.set(key, value));
    return 'done';
  }));
}

async function once(address, key, deadline, reply) {
  console.log(await attempt(async () => (await connect(address, options(deadline, reply))).once(key, () => 'made')));
}

const [address, job, ...words] = process.argv.slice(2);
await { count, reserve, walk, errors, set, once }[job](address, ...words);
