// A client of ssikvd over node-redis (Debian: node-redis, node-generic-pool), whose reconnecting and queueing is switched off.
'use strict';
const { createClient, ErrorReply } = require('redis');
const { createPool } = require('generic-pool');

async function connect(port, host) {
  const socket = { host, port, reconnectStrategy: () => new Error('lost') };
  const client = createClient({ socket, disableOfflineQueue: true });
  client.on('error', () => client.isOpen && client.disconnect().catch(() => {})); // else it would connect anew, without the transaction
  await client.connect();
  return client;
}

function mayBeginAgain(error) {
  return error instanceof ErrorReply && (error.message.startsWith('CONFLICT') || error.message === 'FULL transactions');
}

// Waits at random, so that two do not meet again and again.
function wait(turn) {
  return new Promise((done) => setTimeout(done, Math.random() * 2 ** Math.min(turn, 6)));
}

// Runs transactions over at most 64 connections. Each is lent for one whole transaction.
class Store {
  constructor(port, host = '127.0.0.1', size = 64) {
    const factory = { create: async () => ({ client: null }), destroy: async ({ client }) => client?.isOpen && client.disconnect() };
    this.pool = createPool(factory, { max: size });
    this.connect = () => connect(port, host);
  }

  async try(work) {
    const place = await this.pool.acquire();
    const ask = (...parts) => place.client.sendCommand(parts.map(String));
    try {
      if (!place.client?.isReady) place.client = await this.connect();
      await ask('BEGIN');
      let result;
      try {
        result = await work(ask);
      } catch (error) {
        await ask('ABORT').catch(() => {}); // else the next borrower would find the transaction open
        throw error;
      }
      await ask('COMMIT');
      return result;
    } finally {
      await this.pool.release(place);
    }
  }

  // Runs work(ask) in a transaction until COMMIT is answered a number, and gives what work gave. Where it throws what is no ErrorReply, the
  // connection was lost: if COMMIT was sent, its outcome is unknown.
  async transact(work, tries = 1000) {
    for (let turn = 0; turn < tries; turn += 1) {
      try {
        return await this.try(work);
      } catch (error) {
        if (!mayBeginAgain(error)) throw error;
      }
      await wait(turn);
    }
    throw new Error(`refused ${tries} times in a row`);
  }

  // Runs work(ask) in a transaction that commits once, though connections are lost. Did this call commit it?
  async once(name, work, tries = 1000) {
    for (let turn = 0; turn < tries; turn += 1) {
      try {
        return await this.transact(async (ask) => {
          if (await ask('GET', `done:${name}`) !== null) return false;
          await work(ask);
          await ask('SET', `done:${name}`, '');
          return true;
        });
      } catch (error) {
        if (error instanceof ErrorReply) throw error;
      }
      await wait(turn);
    }
    throw new Error(`${tries} connections, one after another`);
  }

  async close() {
    await this.pool.drain();
    await this.pool.clear();
  }
}

module.exports = { Store };
