/**
 * A web application that reserves seats, over node:http: `node seats.mjs ADDRESS PORT`. From a shell:
 *
 *     curl -d name=ann -H 'Idempotency-Key: 1' http://127.0.0.1:PORT/seats/3B
 *
 *     GET  /seats          200: each seat, `free` or `taken`, as one state of the store
 *     POST /seats/SEAT     reserves the seat for the form's `name`; the header `Idempotency-Key` names the request, and is new for each
 *                          201: it is reserved. 409: it is taken. 404: there is no such seat. 400: no name, or no key.
 *                          422: the key came before with another seat or name
 *
 * Whoever repeats a request with its key gets the answer that the first one got, and no second seat. Either may answer also
 *
 *     503    with Retry-After: the store is full, stopped or not to be reached, or conflicts went on until the deadline. Nothing was
 *            written
 *     504    it isn't known whether the seat is reserved: repeat the request with the same key, and tell nobody that it failed
 *
 * Keys: `seat:SEAT` holds the name, and isn't there while the seat is free. `done:KEY` holds the status that was answered, the seat and the
 * name; delete it once nobody repeats the request any more.
 */
import { createServer } from 'node:http';
import { Conflict, Full, Lost, SsikvdError, Stopped, Unreachable, connect, endOfPrefix } from 'ssikvd';

const SEATS = Array.from({ length: 10 }, (_, row) => [...'ABCDEF'].map((place) => `${row + 1}${place}`)).flat();
const BYTES_MAX = 100; // of a name, and of an idempotency key
const FORM_MAX = 4_096;
const CONNECTIONS = 16; // those of all processes together should be at most 64
const DEADLINE = 2_000; // milliseconds that a visitor waits, before there is a page that says so

/** An answer that isn't a page, and its status. */
class Answer extends Error {
  constructor(status, text) {
    super(text);
    this.status = status;
  }
}

/** Reserves the seat, unless it is taken. Gives the status to answer, and what was asked. */
async function reserve(transaction, seat, name) {
  if (await transaction.get(`seat:${seat}`)) return `409 ${seat} ${name}`;
  await transaction.set(`seat:${seat}`, name);
  return `201 ${seat} ${name}`;
}

/** Each seat, as the transaction sees it. */
async function states(transaction) {
  const found = Object.fromEntries(SEATS.map((seat) => [seat, 'free']));
  for await (const [key] of transaction.range('seat:', endOfPrefix('seat:'))) found[String(key).slice('seat:'.length)] = 'taken';
  return found;
}

async function formOf(request) {
  let text = '';
  for await (const piece of request.setEncoding('utf8')) {
    text += piece;
    if (text.length > FORM_MAX) throw new Answer(413, 'The form is too long.');
  }
  return new URLSearchParams(text);
}

async function post(store, seat, request) {
  const key = request.headers['idempotency-key'] ?? '', name = (await formOf(request)).get('name') ?? '';
  if (!SEATS.includes(seat)) throw new Answer(404, 'There is no such seat.');
  const isRight = [key, name].every((text) => text !== '' && Buffer.byteLength(text) <= BYTES_MAX);
  if (!isRight) throw new Answer(400, `An Idempotency-Key and a name are needed, each of at most ${BYTES_MAX} bytes.`);
  const found = String(await store.once(`done:${key}`, (transaction) => reserve(transaction, seat, name)));
  const status = found.slice(0, 3);
  if (found !== `${status} ${seat} ${name}`) throw new Answer(422, 'This Idempotency-Key came before with another seat or name.');
  if (status === '409') throw new Answer(409, 'The seat is taken.');
  return [201, { seat, name }];
}

/** The status and the value of a page. */
async function pageOf(store, request) {
  const path = request.url.split('?', 1)[0];
  if (request.method === 'GET' && path === '/seats') return [200, await store.transact(states)];
  if (request.method === 'POST' && path.startsWith('/seats/')) return post(store, path.slice('/seats/'.length), request);
  throw new Answer(404, 'There is no such page.');
}

/** What to answer in place of a page. Invalid and Refused are faults of this program, as is all else. */
function answerTo(error) {
  if (error instanceof Answer) return error;
  console.error(String(error));
  if (error instanceof Lost) return new Answer(504, "It isn't known whether this was done. Repeat it with the same Idempotency-Key.");
  const isForNow = [Conflict, Full, Stopped, Unreachable].some((kind) => error instanceof kind);
  return isForNow ? new Answer(503, 'Nothing was done. Repeat the request later.') : new Answer(500, 'This program has a fault.');
}

async function respond(store, request, response) {
  try {
    const [status, page] = await pageOf(store, request);
    response.writeHead(status, { 'Content-Type': 'application/json' }).end(JSON.stringify(page));
  } catch (error) {
    const { status, message } = answerTo(error);
    const headers = { 'Content-Type': 'text/plain; charset=utf-8', ...(status === 503 && { 'Retry-After': '1' }) };
    response.writeHead(status, headers).end(`${message}\n`);
  }
}

try {
  const [address, port] = process.argv.slice(2);
  const store = await connect(address, { connections: CONNECTIONS, connectTimeout: 1_000, replyTimeout: DEADLINE, deadline: DEADLINE });
  const server = createServer((request, response) => respond(store, request, response));
  server.listen(Number(port), '127.0.0.1', () => console.log(`listening 127.0.0.1:${server.address().port}`));
} catch (error) {
  if (!(error instanceof SsikvdError)) throw error;
  console.error(`seats: ${error.message}`);
  process.exitCode = 1;
}
