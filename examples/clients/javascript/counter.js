// Several workers add to one counter, each addition once: counter.js PORT COUNTER WORKERS TIMES.
'use strict';
const { Store } = require('./client');

async function main([port, counter, workers, times]) {
  const store = new Store(Number(port));
  let added = 0, tries = 0;
  const add = async (ask) => {
    tries += 1;
    await ask('SET', counter, Number(await ask('GET', counter)) + 1);
  };
  const play = async (worker) => {
    for (let turn = 0; turn < Number(times); turn += 1) {
      if (await store.once(`${counter}.${worker}.${turn}`, add)) added += 1;
    }
  };
  try {
    await Promise.all(Array.from({ length: Number(workers) }, (_, worker) => play(worker)));
    const count = await store.transact((ask) => ask('GET', counter));
    console.log(`added ${added}, counter ${count}\ntries ${tries}`);
  } finally {
    await store.close();
  }
}

main(process.argv.slice(2)).catch((error) => {
  console.error(error);
  process.exitCode = 1;
});
