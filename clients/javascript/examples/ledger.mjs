/**
 * A ledger: accounts, transfers in double entry, no overdraft.
 *
 *     node ledger.mjs ADDRESS transfer                          makes a transfer of each line of its input, `ID FROM TO AMOUNT`;
 *                                                               prints `ID ANSWER` for each
 *     node ledger.mjs ADDRESS balances                          prints `ACCOUNT BALANCE` of each account, all of one moment
 *     node ledger.mjs ADDRESS statement ACCOUNT FIRST COUNT     prints so many entries from the first on,
 *                                                               each as `NUMBER AMOUNT BALANCE ID OTHER`
 *
 * The answers: `moved`. `uncovered`: the account has less. `differs`: this ID was another transfer. `invalid`: a name, an amount, one
 * account twice. `later`: nothing was written. `unknown`: nobody knows. After `later` and `unknown` the status is 1. Give the same lines
 * again: what was moved isn't moved twice, and has the answer that it had.
 *
 * Amounts are whole cents. Money comes from the account `outside` and goes there; it alone may be below zero. So all balances add up to
 * zero.
 *
 * Keys: `account:NAME` holds the balance and how many entries there are, `entry:NAME:NUMBER` the amount, the balance behind it, the ID and
 * the other account, `transfer:ID` the answer and what was asked. A transfer writes five of them in one transaction.
 * Transfers of one account meet in its key, so that all but one of them begin again; those of other accounts don't. `balances` reads all
 * accounts in one transaction, which sees at most 32,767 of them; a statement costs what it prints, however long the account is.
 */
import { createInterface } from 'node:readline';
import { Conflict, Full, Lost, SsikvdError, Stopped, Unreachable, connect, endOfPrefix } from 'ssikvd';

const OUTSIDE = 'outside';
const NAME = /^[A-Za-z0-9_-]{1,64}$/; // without a colon, so that no account's entries stand among those of another
const AMOUNT = /^[1-9][0-9]{0,11}$/;

const entryOf = (account, number) => `entry:${account}:${String(number).padStart(10, '0')}`;

/** The balance, and how many entries there are; zero of both for an account that nobody has used. */
async function balanceOf(transaction, account) {
  const [balance, entries] = String((await transaction.get(`account:${account}`)) ?? '0 0').split(' ');
  return { balance: BigInt(balance), entries: Number(entries) };
}

/** Adds an entry to the account, below zero where money leaves it. */
async function post(transaction, account, amount, id, other) {
  const { balance, entries } = await balanceOf(transaction, account);
  await transaction.set(`account:${account}`, `${balance + amount} ${entries + 1}`);
  await transaction.set(entryOf(account, entries + 1), `${amount} ${balance + amount} ${id} ${other}`);
}

/** Both entries, unless the source has less. Gives the answer, and what was asked. */
async function move(transaction, id, source, target, amount) {
  const isCovered = source === OUTSIDE || (await balanceOf(transaction, source)).balance >= amount;
  if (!isCovered) return `uncovered ${source} ${target} ${amount}`;
  await post(transaction, source, -amount, id, target);
  await post(transaction, target, amount, id, source);
  return `moved ${source} ${target} ${amount}`;
}

/** The answer to a transfer, made at most once however often it is asked for. */
async function transfer(store, [id, source, target, amount]) {
  try {
    const found = String(await store.once(`transfer:${id}`, (transaction) => move(transaction, id, source, target, BigInt(amount))));
    const answer = found.slice(0, found.indexOf(' '));
    return found === `${answer} ${source} ${target} ${amount}` ? answer : 'differs';
  } catch (error) {
    if (error instanceof Lost) return 'unknown';
    if (![Conflict, Full, Stopped, Unreachable].some((kind) => error instanceof kind)) throw error;
    console.error(`${id}: ${error.message}`);
    return 'later';
  }
}

function isTransfer([id, source, target, amount, ...more]) {
  return [id, source, target].every((name) => NAME.test(name)) && AMOUNT.test(amount) && source !== target && more.length === 0;
}

/** Makes the transfers one after another. Are all of them settled? */
async function transfers(store, lines) {
  let isSettled = true;
  for await (const line of lines) {
    const words = line.split(' ');
    const answer = isTransfer(words) ? await transfer(store, words) : 'invalid';
    console.log(`${words[0]} ${answer}`);
    isSettled = isSettled && answer !== 'later' && answer !== 'unknown';
  }
  return isSettled;
}

/** Each account with its balance. They are of one snapshot, so they add up to zero beside any transfer. */
async function balances(transaction) {
  const rows = [];
  for await (const [key, value] of transaction.range('account:', endOfPrefix('account:'))) {
    rows.push(`${String(key).slice('account:'.length)} ${String(value).split(' ', 1)[0]}`);
  }
  return rows;
}

/** So many entries of the account from the first, each with its number. */
async function statement(transaction, account, first, count) {
  const rows = [];
  for await (const [key, value] of transaction.range(entryOf(account, first), endOfPrefix(`entry:${account}:`), count)) {
    rows.push(`${Number(String(key).split(':')[2])} ${value}`);
  }
  return rows;
}

async function main([address, what, ...words]) {
  const store = await connect(address, { connections: 1 });
  if (what === 'transfer') return transfers(store, createInterface({ input: process.stdin }));
  const read = what === 'balances' ? balances : (transaction) => statement(transaction, words[0], Number(words[1]), Number(words[2]));
  for (const row of await store.transact(read)) console.log(row);
  return true;
}

try {
  process.exitCode = (await main(process.argv.slice(2))) ? 0 : 1;
} catch (error) {
  if (!(error instanceof SsikvdError)) throw error;
  console.error(`ledger: ${error.message}`);
  process.exitCode = 1;
}
