'use strict';
const { createClient } = require('redis');
const [port, mode, form] = process.argv.slice(2);

async function show(ask) {
  try {
    console.log('gave', JSON.stringify(await ask()));
  } catch (error) {
    console.log('rejects', error.constructor.name, error.message);
  }
}

async function main() {
  const client = createClient({ socket: { port: Number(port), host: '127.0.0.1' }, disableOfflineQueue: mode === 'off' });
  client.on('error', () => { if (mode === 'off' && client.isOpen) client.disconnect().catch(() => {}); });
  await client.connect();
  const lines = require('fs').readFileSync(0, 'utf8').trim().split('\n').map((line) => line.split(' '));
  if (form === 'each') {
    for (const line of lines) await show(() => client.sendCommand(line));
  } else {
    await show(() => Promise.all(lines.map((line) => client.sendCommand(line))));
  }
  process.exit();
}

main();
