// Frames, keys and errors. Nothing here touches a socket.

export const KEY_MAX = 256, VALUE_MAX = 16_384, WRITES_MAX = 64, MARKS_MAX = 256, PAIRS_MAX = 128, CONNECTIONS_MAX = 64;
const LINE_MAX = 600;

/** What this package throws. */
export class SsikvdError extends Error {
  constructor(message, options) {
    super(message, options);
    this.name = new.target.name;
  }
}

/** A call that breaks a limit, or comes after the end of its transaction. Nothing was sent. */
export class Invalid extends SsikvdError {}

/** No connection, or one that was lost before COMMIT was sent. Nothing was written. */
export class Unreachable extends SsikvdError {}

/** COMMIT was sent, and its outcome isn't known. `once` with the same key settles it. */
export class Lost extends SsikvdError {}

/** A refusal of the server's, whose words are `text`. */
export class Refused extends SsikvdError {
  constructor(text) {
    super(text);
    this.text = text;
  }
}

/** COMMIT met other commits: `key` was overwritten by one, or else `pivot` is 'self' or the number of one. */
export class Conflict extends Refused {
  constructor(text) {
    super(text);
    const [, kind, what] = text.split(' ');
    if (kind === 'overwritten') this.key = Buffer.from(what, 'hex');
    else this.pivot = what === 'self' ? what : Number(what);
  }
}

/** There is no room: `limit` is transactions, writes, marks, log, numbers, or connections, which are the pool's. */
export class Full extends Refused {
  constructor(text) {
    super(text);
    this.limit = text.split(' ')[1];
  }
}

/** The store was stopped by a fault of its device. Nothing was written. */
export class Stopped extends Refused {}

/** The error of a refusal. */
function refusal(text) {
  if (/^CONFLICT (overwritten ([0-9a-f]{2})+|pivot (self|\d+))$/.test(text)) return new Conflict(text);
  if (/^FULL \w+$/.test(text)) return new Full(text);
  return text === 'STORE stopped' ? new Stopped(text) : new Refused(text);
}

/** The request of these parts, each a Buffer. */
export function encode(parts) {
  const pieces = [Buffer.from(`*${parts.length}\r\n`)];
  for (const part of parts) pieces.push(Buffer.from(`$${part.length}\r\n`), part, Buffer.from('\r\n'));
  return Buffer.concat(pieces);
}

/**
 * The reply at this place and the place after it; undefined while it isn't whole. A value and a text are a Buffer, no value is null,
 * a number a bigint, a refusal its error, pairs an array of key, value, key, value. Throws Unreachable at bytes that are no reply.
 */
export function decode(data, at = 0) {
  const found = data.indexOf('\r\n', at);
  const isLine = found >= 0 && found - at <= LINE_MAX;
  if (!isLine && data.length - at <= LINE_MAX) return undefined;
  const line = isLine ? data.toString('latin1', at, found) : '', end = found + 2;
  const text = line.slice(1), number = /^\d{1,19}$/.test(text) ? Number(text) : NaN;
  if (line[0] === '+') return { reply: data.subarray(at + 1, found), end };
  if (line[0] === '-') return { reply: refusal(text), end };
  if (line === '$-1') return { reply: null, end };
  if (line[0] === ':' && number >= 0) return { reply: BigInt(text), end };
  if (line[0] === '$' && number <= VALUE_MAX) return bulk(data, end, number);
  if (line[0] === '*' && number <= 2 * PAIRS_MAX) return array(data, end, number);
  throw new Unreachable(`this is no reply of ssikvd: ${data.toString('latin1', at, at + 60)}`);
}

function bulk(data, at, length) {
  const end = at + length;
  return data.length >= end + 2 ? { reply: Buffer.from(data.subarray(at, end)), end: end + 2 } : undefined;
}

function array(data, at, count) {
  const reply = [];
  for (let end = at; ;) {
    if (reply.length === count) return { reply, end };
    const part = decode(data, end);
    if (part === undefined) return undefined;
    reply.push(part.reply);
    end = part.end;
  }
}

function bytes(data) {
  return typeof data === 'string' ? Buffer.from(data) : Buffer.from(data.buffer, data.byteOffset, data.byteLength);
}

/** The bytes of a key, or with least 0 of a bound. */
export function keyOf(key, least = 1) {
  const data = bytes(key);
  if (data.length < least || data.length > KEY_MAX) throw new Invalid(`a key has 1 to ${KEY_MAX} bytes, this one has ${data.length}`);
  return data;
}

/** The bytes of a value. */
export function valueOf(value) {
  const data = bytes(value);
  if (data.length > VALUE_MAX) throw new Invalid(`a value has at most ${VALUE_MAX} bytes, this one has ${data.length}`);
  return data;
}

/** The least key above this one; undefined above the last of all. */
export function after(key) {
  const data = keyOf(key);
  return data.length < KEY_MAX ? Buffer.concat([data, Buffer.alloc(1)]) : endOfPrefix(data);
}

/** The least key above all that begin with the prefix; undefined where there is none. */
export function endOfPrefix(prefix) {
  const data = keyOf(prefix, 0);
  let length = data.length;
  while (length > 0 && data[length - 1] === 0xff) length -= 1;
  if (length === 0) return undefined;
  const end = Buffer.from(data.subarray(0, length));
  end[length - 1] += 1;
  return end;
}
