// Calls that the work didn't wait for, on a server that answers by a script: `node --test tests/`.
import assert from 'node:assert/strict';
import { createServer } from 'node:net';
import { test } from 'node:test';
import { Full, Invalid, connect } from '../index.js';

/** A server that answers SET as it is told, and all else as a store would. Gives what was asked, and a store over it. */
async function scripted(context, answerToSet) {
  const asked = [], streams = new Set();
  const server = createServer((stream) => {
    streams.add(stream);
    stream.on('data', (data) => {
      for (const [, name] of data.toString().matchAll(/(PING|BEGIN|SET|GET|COMMIT|ABORT)\r\n/g)) {
        asked.push(name);
        stream.write({ PING: '+PONG\r\n', SET: answerToSet, GET: '$-1\r\n', COMMIT: ':1\r\n' }[name] ?? '+OK\r\n');
      }
    });
  });
  await new Promise((resolve) => server.listen(0, '127.0.0.1', resolve));
  const store = await connect(`127.0.0.1:${server.address().port}`);
  context.after(() => {
    for (const stream of streams) stream.destroy();
    server.close();
  });
  return { asked, store };
}

test('a call that the work leaves is waited for before COMMIT', async (context) => {
  const { asked, store } = await scripted(context, '+OK\r\n');
  await store.transact((transaction) => { transaction.set('a', '1'); });
  assert.deepEqual(asked, ['PING', 'BEGIN', 'SET', 'COMMIT']);
});

test('if it is refused, nothing is committed', async (context) => {
  const { asked, store } = await scripted(context, '-FULL writes\r\n');
  await assert.rejects(store.transact((transaction) => { transaction.set('a', '1'); }), Full);
  assert.deepEqual(asked, ['PING', 'BEGIN', 'SET', 'ABORT']);
});

test('calls may be under way together', async (context) => {
  const { store } = await scripted(context, '+OK\r\n');
  const found = await store.transact((transaction) => Promise.all([transaction.get('a'), transaction.set('a', '1'), transaction.get('b')]));
  assert.deepEqual(found, [undefined, undefined, undefined]);
});

test('bounds of the options', async () => {
  await assert.rejects(connect('7777'), Invalid);
  await assert.rejects(connect('127.0.0.1:99999'), Invalid);
  await assert.rejects(connect('127.0.0.1:7777', { connections: 65 }), Invalid);
});
