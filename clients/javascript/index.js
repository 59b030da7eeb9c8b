/**
 * A client of ssikvd, an ordered key-value store with strictly serializable transactions. index.d.ts says what each call does.
 *
 *     const store = await connect('127.0.0.1:7777');
 *     await store.transact((transaction) => transaction.set('greeting', 'hello'));
 */
import { createConnection } from 'node:net';
import { setTimeout as sleep } from 'node:timers/promises';
import {
  CONNECTIONS_MAX, Conflict, Full, Invalid, Lost, MARKS_MAX, PAIRS_MAX, Refused, Unreachable, WRITES_MAX,
  after, decode, encode, keyOf, valueOf,
} from './frames.js';

export { Conflict, Full, Invalid, Lost, Refused, SsikvdError, Stopped, Unreachable, after, endOfPrefix } from './frames.js';

/** One connection. Requests may follow each other without waiting; their replies come in the same order. */
class Session {
  #socket; #timeout; #came = Buffer.alloc(0); #waiting = []; #lost;

  /** A session, once the connection is open. Times are in milliseconds. */
  static async open(host, port, connectTimeout, replyTimeout) {
    const socket = createConnection({ host, port, noDelay: true });
    const session = new Session(socket, replyTimeout);
    const timer = setTimeout(() => socket.destroy(new Error('no connection in time')), connectTimeout);
    await new Promise((resolve) => socket.once('connect', resolve).once('close', resolve));
    clearTimeout(timer);
    if (session.#lost) throw session.#lost;
    return session;
  }

  constructor(socket, timeout) {
    this.#socket = socket;
    this.#timeout = timeout;
    socket.on('data', (piece) => this.#take(piece));
    socket.on('error', (error) => this.#lose(new Unreachable(error.message, { cause: error })));
    socket.on('close', () => this.#lose(new Unreachable('the server closed the connection: it has ended, or 128 are open')));
  }

  get isLost() { return this.#lost !== undefined; }

  /** Sends one request and gives its reply. Rejects with its refusal, or Unreachable. */
  ask(name, ...parts) {
    if (this.#lost) return Promise.reject(this.#lost);
    return new Promise((resolve, reject) => {
      const timer = setTimeout(() => this.#lose(new Unreachable('no reply in time')), this.#timeout);
      this.#waiting.push({ resolve, reject, timer });
      this.#socket.write(encode([Buffer.from(name), ...parts]));
    });
  }

  /** Sends COMMIT. Rejects with its refusal, with Unreachable before it is sent, or with Lost where the outcome isn't known. */
  async commit() {
    if (this.#lost) throw this.#lost;
    try {
      await this.ask('COMMIT');
    } catch (error) {
      if (error instanceof Unreachable || error.text === 'STORE fault') throw new Lost(`COMMIT: ${error.message}`, { cause: error });
      throw error;
    }
  }

  /** Lets the process end, or not, while this connection is open. */
  hold(isHeld) { if (isHeld) this.#socket.ref(); else this.#socket.unref(); }

  close() { this.#socket.destroy(); }

  #take(piece) {
    this.#came = this.#came.length > 0 ? Buffer.concat([this.#came, piece]) : piece;
    try {
      for (let found; this.#waiting.length > 0 && (found = decode(this.#came));) {
        this.#came = this.#came.subarray(found.end);
        const { resolve, reject, timer } = this.#waiting.shift();
        clearTimeout(timer);
        if (found.reply instanceof Refused) reject(found.reply);
        else resolve(found.reply);
      }
      if (this.#waiting.length === 0 && this.#came.length > 0) throw new Unreachable('a reply came to no request');
    } catch (error) {
      this.#lose(error);
    }
  }

  #lose(error) {
    this.#lost ??= error;
    this.#socket.destroy();
    for (const { reject, timer } of this.#waiting.splice(0)) {
      clearTimeout(timer);
      reject(this.#lost);
    }
  }
}

class Transaction {
  #session; #written = new Set(); #read = new Set(); #underWay = new Set();

  constructor(session) { this.#session = session; }

  get(key) { return this.#call(() => this.#get(keyOf(key))); }

  set(key, value) { return this.#call(() => this.#write('SET', keyOf(key), valueOf(value))); }

  delete(key) { return this.#call(() => this.#write('DEL', keyOf(key))); }

  range(lo = '', hi = undefined, limit = Infinity) {
    if (!(limit >= 1)) throw new Invalid(`a limit is at least 1, this one is ${limit}`);
    return this.#pairs(lo.length > 0 ? keyOf(lo) : Buffer.alloc(1), keyOf(hi ?? '', 0), limit);
  }

  async *#pairs(lo, hi, limit) {
    for (let at = lo, left = limit; at && left > 0 && (hi.length === 0 || at.compare(hi) < 0);) {
      const size = Math.min(left, PAIRS_MAX);
      const page = await this.#ask('RANGE', at, hi, Buffer.from(String(size)));
      for (let place = 0; place < page.length; place += 2) yield [page[place], page[place + 1]];
      at = page.length === 2 * size ? after(page.at(-2)) : undefined;
      left -= size;
    }
  }

  async #get(key) {
    const name = key.toString('latin1');
    if (!this.#written.has(name) && !this.#read.has(name)) {
      if (this.#read.size === MARKS_MAX) throw new Full('FULL marks');
      this.#read.add(name);
    }
    return (await this.#ask('GET', key)) ?? undefined;
  }

  async #write(name, key, ...value) {
    const written = key.toString('latin1');
    if (!this.#written.has(written) && this.#written.size === WRITES_MAX) throw new Full('FULL writes');
    this.#written.add(written);
    await this.#ask(name, key, ...value);
  }

  #ask(...parts) {
    if (!this.#session) throw new Invalid('the transaction has ended');
    return this.#session.ask(...parts);
  }

  /** Gives what the steps give. Until they have ended, the call is under way. */
  #call(steps) {
    const call = {};
    this.#underWay.add(call);
    call.promise = (async () => {
      try {
        return await steps();
      } finally {
        this.#underWay.delete(call);
      }
    })();
    return call.promise;
  }

  /** Lets further calls reject with Invalid, and waits for those that are under way. */
  static async end(transaction) {
    transaction.#session = undefined;
    await Promise.all([...transaction.#underWay].map(({ promise }) => promise));
  }
}

/** The tries of one call, none of which begins after its deadline, in milliseconds. */
class Tries {
  #end; #failed = 0;

  constructor(milliseconds) { this.#end = performance.now() + milliseconds; }

  get left() { return Math.max(0, this.#end - performance.now()); }

  /** Waits after this error, by chance, so that two don't meet again and again. Throws it where no time is left. */
  async wait(error) {
    const milliseconds = Math.random() * 2 ** Math.min(this.#failed, 6);
    this.#failed += 1;
    if (milliseconds >= this.left) throw error;
    await sleep(milliseconds);
  }
}

class Store {
  #address; #options; #idle = []; #lent = 0; #queue = []; #isClosed = false;

  constructor(address, options) {
    const parts = /^\[?([^\]]+)\]?:(\d+)$/.exec(address);
    if (!parts || Number(parts[2]) > 65_535) throw new Invalid(`an address is HOST:PORT, this one is ${address}`);
    const isWithin = options.connections >= 1 && options.connections <= CONNECTIONS_MAX;
    if (!isWithin) throw new Invalid(`a pool has 1 to ${CONNECTIONS_MAX} connections`);
    this.#address = [parts[1], Number(parts[2])];
    this.#options = options;
  }

  /** Opens the first connection, and has a PING answered. */
  static async start(store) {
    const session = await store.#open();
    await session.ask('PING');
    store.#keep(session);
    return store;
  }

  async transact(work, deadline = this.#options.deadline) {
    for (const tries = new Tries(deadline); ;) {
      try {
        return await this.#try(work, tries.left);
      } catch (error) {
        const isForNow = error instanceof Full && error.limit === 'transactions';
        if (!(isForNow || error instanceof Conflict || error instanceof Unreachable)) throw error;
        await tries.wait(error);
      }
    }
  }

  async once(key, work, deadline = this.#options.deadline) {
    const name = keyOf(key), tries = new Tries(deadline);
    const unlessDone = async (transaction) => {
      let found = await transaction.get(name);
      if (found === undefined) {
        found = valueOf((await work(transaction)) ?? '');
        await transaction.set(name, found);
      }
      return found;
    };
    for (let lost; ;) {
      try {
        return await this.transact(unlessDone, tries.left);
      } catch (error) {
        if (!(error instanceof Lost)) throw lost ? new Lost(`${lost.message}; then ${error.message}`, { cause: error }) : error;
        lost = error;
        await tries.wait(error);
      }
    }
  }

  async close() {
    this.#isClosed = true;
    this.#closeIdle();
  }

  async #try(work, milliseconds) {
    const session = await this.#lend(milliseconds);
    const transaction = new Transaction(session);
    let isOpen = false;
    try {
      await session.ask('BEGIN');
      isOpen = true;
      const result = await work(transaction);
      await Transaction.end(transaction);
      isOpen = false;
      await session.commit();
      return result;
    } finally {
      await Transaction.end(transaction).catch(() => undefined); // the first error is thrown, not theirs
      await this.#takeBack(session, isOpen);
    }
  }

  async #lend(milliseconds) {
    await this.#place(milliseconds);
    try {
      if (this.#isClosed) throw new Invalid('the store is closed');
      while (this.#idle.at(-1)?.isLost) this.#idle.pop();
      const session = this.#idle.pop() ?? (await this.#open());
      session.hold(true);
      return session;
    } catch (error) {
      this.#release();
      throw error;
    }
  }

  #open() { return Session.open(...this.#address, this.#options.connectTimeout, this.#options.replyTimeout); }

  /** Waits for one of the pool's places. */
  async #place(milliseconds) {
    if (this.#lent < this.#options.connections) {
      this.#lent += 1;
      return;
    }
    await new Promise((resolve, reject) => {
      const place = { resolve, timer: setTimeout(() => {
        this.#queue.splice(this.#queue.indexOf(place), 1);
        reject(new Full('FULL connections'));
      }, milliseconds) };
      this.#queue.push(place);
    });
  }

  #release() {
    const next = this.#queue.shift();
    if (!next) {
      this.#lent -= 1;
      return;
    }
    clearTimeout(next.timer);
    next.resolve();
  }

  /** Keeps the connection, once its transaction has ended. One that is lost takes those that are idle with it. */
  async #takeBack(session, isOpen) {
    try {
      if (isOpen) await session.ask('ABORT');
    } catch { /* it is lost, or the server has ended the transaction */ }
    this.#keep(session);
    this.#release();
  }

  #keep(session) {
    if (!session.isLost && !this.#isClosed) {
      session.hold(false);
      this.#idle.push(session);
    } else {
      session.close();
      this.#closeIdle();
    }
  }

  #closeIdle() { for (const session of this.#idle.splice(0)) session.close(); }
}

export async function connect(address, options = {}) {
  return Store.start(new Store(address, { connections: 16, connectTimeout: 5_000, replyTimeout: 10_000, deadline: 30_000, ...options }));
}
