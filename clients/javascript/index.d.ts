/** A client of ssikvd, an ordered key-value store with strictly serializable transactions. Times are in milliseconds. */

/** A key or a value. A string is taken as its UTF-8. */
export type Data = string | Uint8Array;

export interface Options {
  /** Connections of the pool, 1 to 64; by default 16. Those of all programs together should be at most 64. */
  connections?: number;
  /** For opening one connection; by default 5,000. */
  connectTimeout?: number;
  /** For waiting for one reply; by default 10,000. */
  replyTimeout?: number;
  /** For `transact` and `once`, none of whose tries begins later; by default 30,000. */
  deadline?: number;
}

/** A store, once the server at HOST:PORT has answered. Rejects with Unreachable, or Invalid. */
export function connect(address: string, options?: Options): Promise<Store>;

/** A pool of connections, each lent for one try of a transaction. `connect` makes one. */
export interface Store {
  /**
   * Runs work(transaction), commits, and gives what the work gave. The work may run more than once, so it does nothing but read and write
   * through its transaction. What it throws aborts the transaction. No try begins after the deadline; then it rejects with the last try's
   * Conflict, Full or Unreachable. It rejects also with Stopped, and Lost.
   */
  transact<Result>(work: (transaction: Transaction) => Result | Promise<Result>, deadline?: number): Promise<Result>;
  /**
   * Commits the work once for this key, however often it is called, and gives the bytes that the work gave then. The store keeps them as
   * the value of the key. Rejects as `transact` does, and with Lost where the outcome of a try isn't known.
   */
  once(key: Data, work: (transaction: Transaction) => Data | void | Promise<Data | void>, deadline?: number): Promise<Buffer>;
  /** Closes the connections that are idle, and each other one at the end of its transaction. */
  close(): Promise<void>;
}

/** What the work of `transact` reads and writes. Once the work has returned, its calls reject with Invalid. */
export interface Transaction {
  /** The value of the key, if it is there. Rejects with Invalid, Full at the 257th new key, Unreachable. */
  get(key: Data): Promise<Buffer | undefined>;
  /** Writes the key. Rejects with Invalid, Full at the 65th key that is written, Unreachable. */
  set(key: Data, value: Data): Promise<void>;
  /** Deletes the key, whether it is there or not. Rejects as `set` does. */
  delete(key: Data): Promise<void>;
  /** The pairs with lo <= key < hi by rising key, at most `limit`. They are asked page by page, as they are needed. */
  range(lo?: Data, hi?: Data, limit?: number): AsyncGenerator<[Buffer, Buffer], void, void>;
}

/** The least key above this one; undefined above the last of all. */
export function after(key: Data): Buffer | undefined;
/** The least key above all that begin with the prefix; undefined where there is none. */
export function endOfPrefix(prefix: Data): Buffer | undefined;

/** What this package throws. */
export class SsikvdError extends Error {}
/** A call that breaks a limit, or comes after the end of its transaction. Nothing was sent. */
export class Invalid extends SsikvdError {}
/** No connection, or one that was lost before COMMIT was sent. Nothing was written. */
export class Unreachable extends SsikvdError {}
/** COMMIT was sent, and its outcome isn't known. `once` with the same key settles it. */
export class Lost extends SsikvdError {}
/** A refusal of the server's. */
export class Refused extends SsikvdError {
  readonly text: string;
}
/** COMMIT met other commits: `key` was overwritten by one, or else `pivot` is 'self' or the number of one. */
export class Conflict extends Refused {
  readonly key?: Buffer;
  readonly pivot?: 'self' | number;
}
/** There is no room; `connections` are those of the pool. */
export class Full extends Refused {
  readonly limit: 'transactions' | 'writes' | 'marks' | 'log' | 'numbers' | 'connections';
}
/** The store was stopped by a fault of its device. Nothing was written. */
export class Stopped extends Refused {}
