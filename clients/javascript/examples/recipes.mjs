// The recipes of docs/COOKBOOK.md: `node recipes.mjs ADDRESS CALL WORDS..`. Without a call it takes calls from its input, one in each line.
//
// Each function that takes a transaction is part of a work of `store.transact`, and may run more than once. Names are strings, numbers of keys BigInts.
import readline from 'node:readline';
import { connect, endOfPrefix } from 'ssikvd';

// Keys of several parts

const INTEGER = 1, TEXT = 2, MIN = -(2n ** 63n), MAX = 2n ** 63n - 1n;

/** The key of these parts: BigInts, strings, Buffers. Where two keys differ in a part, the first such part decides which is the lesser. */
export function key(...parts) {
  return Buffer.concat(parts.map((part) => (typeof part === 'bigint' ? integer(part) : text(part))));
}

/** Eight bytes, the greatest first. With 2 ** 63 added, the negative ones come before zero. */
function integer(number) {
  if (number < MIN || number > MAX) throw new RangeError(`${number} has no 64 bits`);
  const made = Buffer.alloc(9, INTEGER);
  made.writeBigUInt64BE(number - MIN, 1);
  return made;
}

/** The text and an end that is less than all that may follow. A zero byte in the text is written as 0, 255; the end is 0, 1. */
function text(part) {
  const escaped = [...Buffer.from(part)].flatMap((byte) => (byte ? [byte] : [0, 255]));
  return Buffer.from([TEXT, ...escaped, 0, 1]);
}

/** The parts of a key: BigInts, and its texts as Buffers. */
export function partsOf(found) {
  const parts = [];
  for (let at = 0; at < found.length;) {
    if (found[at] === INTEGER) {
      parts.push(found.readBigUInt64BE(at + 1) + MIN);
      at += 9;
    } else {
      const end = found.indexOf('\0\x01', at);
      parts.push(Buffer.from(found.subarray(at + 1, end).toString('latin1').replaceAll('\0\xff', '\0'), 'latin1'));
      at = end + 2;
    }
  }
  return parts;
}

/** The bounds of a range over all keys whose first parts are these. */
export function under(...parts) {
  return [key(...parts), endOfPrefix(key(...parts))];
}

/** The pairs of a range, as an array. */
async function all(range) {
  const pairs = [];
  for await (const pair of range) pairs.push(pair);
  return pairs;
}

// Reservations

/** Who has the room at some moment from the start up to the end; undefined where nobody has. */
export async function holder(transaction, room, start, end) {
  const [, endOfRoom] = under('booking', room);
  const [first] = await all(transaction.range(key('booking', room, start + 1n), endOfRoom, 1)); // the first booking that ends after the start
  if (!first) return undefined;
  const [begin, who] = String(first[1]).split(/ (.*)/s);
  return BigInt(begin) < end ? who : undefined;
}

/** Books the room, unless someone has it then. Gives who had it. */
export async function book(transaction, room, start, end, who) {
  const other = await holder(transaction, room, start, end);
  if (other === undefined) await transaction.set(key('booking', room, end), `${start} ${who}`);
  return other;
}

// A unique address

/** Gives the user the address in place of the one before, unless another has it. Did it? */
export async function register(transaction, user, address) {
  const owner = await transaction.get(key('address', address));
  if (owner && String(owner) !== user) return false;
  const old = await transaction.get(key('user', user));
  if (old) await transaction.delete(key('address', old));
  await transaction.set(key('address', address), user);
  await transaction.set(key('user', user), address);
  return true;
}

// An index

/** Writes the state of the task, and its entry in the index in place of the one before. */
export async function put(transaction, task, state) {
  const old = await transaction.get(key('task', task));
  if (old) await transaction.delete(key('by state', old, task));
  await transaction.set(key('task', task), state);
  await transaction.set(key('by state', state, task), '');
}

/** The tasks in this state, by rising name. */
export async function withState(transaction, state) {
  return (await all(transaction.range(...under('by state', state)))).map(([entry]) => String(partsOf(entry)[2]));
}

// Holds that expire. The store has no clock: each program passes its own, in whole seconds.

const SWEPT_MAX = 32; // of two writes each, which makes the 64 of a transaction

/** When the hold of the seat ends, and whose it is; undefined where there is none, swept or not. */
async function held(transaction, seat) {
  const value = await transaction.get(key('hold', seat));
  if (!value) return undefined;
  const [ends, who] = String(value).split(/ (.*)/s);
  return [BigInt(ends), who];
}

async function drop(transaction, seat, ends) {
  await transaction.delete(key('hold', seat));
  await transaction.delete(key('ends', ends, seat));
}

/** Holds the seat, unless it is sold or held by someone. Did it? */
export async function hold(transaction, seat, who, now, seconds) {
  if (await transaction.get(key('sold', seat))) return false;
  const found = await held(transaction, seat);
  if (found && found[0] > now) return false;
  if (found) await drop(transaction, seat, found[0]); // its time is over, and no sweep has come by
  await transaction.set(key('hold', seat), `${now + seconds} ${who}`);
  await transaction.set(key('ends', now + seconds, seat), '');
  return true;
}

/** Sells the seat to the one that holds it. Did it? */
export async function buy(transaction, seat, who, now) {
  const found = await held(transaction, seat);
  if (!found || found[0] <= now || found[1] !== who) return false;
  await drop(transaction, seat, found[0]);
  await transaction.set(key('sold', seat), who);
  return true;
}

/** Drops holds whose time is over, the oldest first, and gives how many. Where it is SWEPT_MAX, there may be more. */
export async function sweep(transaction, now) {
  const found = await all(transaction.range(key('ends'), key('ends', now + 1n), SWEPT_MAX));
  for (const [entry] of found) {
    const [, ends, seat] = partsOf(entry);
    await drop(transaction, seat, ends);
  }
  return found.length;
}

// A queue

/** Sets the job at the tail. No two jobs of one producer have the same time. */
export async function enqueue(transaction, job, at, producer) {
  await transaction.set(key('job', at, producer), job);
}

/** Deletes the job at the head and gives it; undefined where there is none. */
export async function take(transaction) {
  const [head] = await all(transaction.range(...under('job'), 1));
  if (head) await transaction.delete(head[0]);
  return head?.[1];
}

/** Takes one of the first jobs by chance. It looks in a transaction of its own, so two clients meet only where they choose the same one. */
export async function takeNear(store, width) {
  for (;;) {
    const near = await store.transact((transaction) => all(transaction.range(...under('job'), width)));
    if (!near.length) return undefined;
    const [place] = near[Math.floor(Math.random() * near.length)];
    const job = await store.transact((transaction) => remove(transaction, place));
    if (job) return job;
  }
}

/** Deletes the job at this key and gives it; undefined where another took it. */
async function remove(transaction, place) {
  const job = await transaction.get(place);
  if (job) await transaction.delete(place);
  return job;
}

// A counter with many writers

/** Adds to the number at this key: that of the counter, or of the counter and a writer. */
export async function add(transaction, place, amount = 1n) {
  await transaction.set(place, String(BigInt(String((await transaction.get(place)) ?? 0)) + amount));
}

/** The sum over the counter's key and those of its writers. */
export async function total(transaction, counter) {
  return (await all(transaction.range(...under(counter)))).reduce((sum, [, number]) => sum + BigInt(String(number)), 0n);
}

// More than 64 writes. Versions are integers above 0, each greater than the one before.

const STEP = 62; // with the mark of how far it is, and the current version, 64 writes

/** The version of the list that is read now; 0 where there is none. */
export async function current(transaction, name) {
  return BigInt(String((await transaction.get(key('current', name))) ?? 0));
}

/** Writes the next items of a version, and how far it is; at last also that it is the current one. Is there more to write? */
export async function step(transaction, name, version, items) {
  const mark = key('written', name, version);
  const done = Number((await transaction.get(mark)) ?? 0);
  for (const [item, value] of items.slice(done, done + STEP)) await transaction.set(key('item', name, version, item), value);
  await transaction.set(mark, String(Math.min(done + STEP, items.length)));
  if (done + STEP < items.length) return true;
  if (version > (await current(transaction, name))) await transaction.set(key('current', name), String(version));
  return false;
}

/** Writes a version in several transactions. If it is interrupted, run it again with the same items: it goes on where it was. */
export async function load(store, name, version, items) {
  while (await store.transact((transaction) => step(transaction, name, version, items)));
}

/** The items of the current version and their values. */
export async function read(transaction, name) {
  const pairs = await all(transaction.range(...under('item', name, await current(transaction, name))));
  return pairs.map(([found, value]) => [String(partsOf(found)[3]), String(value)]);
}

/** Deletes up to 64 items of versions before the current one, and gives how many. */
export async function clear(transaction, name) {
  const found = await all(transaction.range(key('item', name), key('item', name, await current(transaction, name)), 64));
  for (const [place] of found) await transaction.delete(place);
  return found.length;
}

// The calls

/** A part of a key: an integer, bytes as 0x and hex digits, or a text. */
function part(word) {
  if (/^-?\d+$/.test(word)) return BigInt(word);
  return word.startsWith('0x') ? Buffer.from(word.slice(2), 'hex') : word;
}

const seconds = () => BigInt(Math.floor(Date.now() / 1000));
let jobs = 0n; // so that no two of this program have the same time
const nanoseconds = () => BigInt(Date.now()) * 1_000_000n + (jobs += 1n);

const CALLS = {
  key: (store, ...words) => key(...words.map(part)).toString('hex'),
  parts: (store, word) => partsOf(Buffer.from(word, 'hex')).map((each) => (typeof each === 'bigint' ? each : `0x${each.toString('hex')}`)).join(' '),
  book: async (store, room, start, end, who) => {
    const other = await store.transact((transaction) => book(transaction, room, BigInt(start), BigInt(end), who));
    return other === undefined ? 'booked' : `${other} has it`;
  },
  register: async (store, ...words) => ((await store.transact((transaction) => register(transaction, ...words))) ? 'registered' : 'another has it'),
  put: async (store, ...words) => (await store.transact((transaction) => put(transaction, ...words))) ?? 'done',
  list: async (store, state) => (await store.transact((transaction) => withState(transaction, state))).join(' '),
  hold: async (store, seat, who, time, now = seconds()) => (
    (await store.transact((transaction) => hold(transaction, seat, who, BigInt(now), BigInt(time)))) ? 'held' : 'not free'),
  buy: async (store, seat, who, now = seconds()) => (
    (await store.transact((transaction) => buy(transaction, seat, who, BigInt(now)))) ? 'sold' : 'not held'),
  sweep: async (store, now = seconds()) => `${await store.transact((transaction) => sweep(transaction, BigInt(now)))} dropped`,
  enqueue: async (store, job, at = nanoseconds(), producer = process.pid) => (
    (await store.transact((transaction) => enqueue(transaction, job, BigInt(at), BigInt(producer)))) ?? 'done'),
  take: async (store) => (await store.transact(take)) ?? 'none',
  take_near: async (store, width) => (await takeNear(store, Number(width))) ?? 'none',
  add: async (store, ...words) => (await store.transact((transaction) => add(transaction, key(...words.map(part))))) ?? 'done',
  total: (store, counter) => store.transact((transaction) => total(transaction, counter)),
  load: async (store, name, version, ...items) => (await load(store, name, BigInt(version), items.map((item) => item.split(/=(.*)/s)))) ?? 'done',
  show: async (store, name) => (await store.transact((transaction) => read(transaction, name))).map((pair) => pair.join('=')).join(' '),
  clear: async (store, name) => `${await store.transact((transaction) => clear(transaction, name))} deleted`,
};

const [address, ...line] = process.argv.slice(2);
const store = await connect(address);
const answer = async ([call, ...words]) => console.log(String(await CALLS[call](store, ...words)));
if (line.length) await answer(line);
else for await (const words of readline.createInterface({ input: process.stdin })) await answer(words.split(' '));
await store.close();
