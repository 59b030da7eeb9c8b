// The frames of ../../frames.txt: `node --test tests/`.
import assert from 'node:assert/strict';
import { readFileSync } from 'node:fs';
import { test } from 'node:test';
import { Refused, Unreachable, after, decode, encode, endOfPrefix } from '../frames.js';

const lines = readFileSync(new URL('../../frames.txt', import.meta.url), 'utf8').split('\n').filter((line) => line && line[0] !== '#');
const bytes = (word) => (word === '-' ? Buffer.alloc(0) : Buffer.from(word, 'hex'));
const rows = (kind) => lines.filter((line) => line.startsWith(`${kind} `)).map((line) => line.slice(kind.length + 1).split(' = '));
const hex = (data) => data.toString('hex') || '-';

/** A reply in the words of a row. */
function shown(reply) {
  if (reply === null) return 'none';
  if (reply instanceof Refused) return `refused ${hex(Buffer.from(reply.text))}`;
  if (typeof reply === 'bigint') return `number ${reply}`;
  return Array.isArray(reply) ? ['pairs', ...reply.map(hex)].join(' ') : hex(reply);
}

test('requests', () => {
  for (const [parts, frame] of rows('request')) assert.equal(hex(encode(parts.split(' ').map(bytes))), frame);
});

test('replies, whole and cut', () => {
  for (const [frame, due] of rows('reply')) {
    const data = bytes(frame), found = decode(Buffer.concat([data, Buffer.from('+OK\r\n')]));
    assert.equal(found.end, data.length);
    assert.equal(shown(found.reply), due.replace(/^(done|value) /, ''));
    for (let length = 0; length < data.length; length += 1) assert.equal(decode(data.subarray(0, length)), undefined);
  }
});

test('what is no reply', () => {
  for (const frame of [...rows('bad').map(([word]) => bytes(word)), Buffer.from(`+${'a'.repeat(1_000)}`)]) {
    assert.throws(() => decode(frame), Unreachable);
  }
});

test('keys', () => {
  assert.deepEqual(after('a'), Buffer.from('a\0'));
  assert.deepEqual(after('a'.repeat(256)), Buffer.from(`${'a'.repeat(255)}b`));
  assert.deepEqual(after(Buffer.concat([Buffer.from('a'), Buffer.alloc(255, 0xff)])), Buffer.from('b'));
  assert.equal(after(Buffer.alloc(256, 0xff)), undefined);
  assert.deepEqual(endOfPrefix('user:'), Buffer.from('user;'));
  assert.deepEqual(endOfPrefix(Buffer.from([0x61, 0xff])), Buffer.from('b'));
  assert.equal(endOfPrefix(''), undefined);
  assert.equal(endOfPrefix(Buffer.from([0xff, 0xff])), undefined);
});
