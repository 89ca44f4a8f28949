// Counts with node-redis' createCluster (Debian's package node-redis): see redis_py.py, which does the same.
// usage: node node_redis.js PORT SECONDS
'use strict';

const { createCluster } = require('redis');

const keys = [];
for (let number = 0; number < 100; number++) {
  keys.push(`count:${number}`, `{counts}:${number}`);
}

async function cluster(port) {
  for (;;) {
    const client = createCluster({ rootNodes: [{ url: `redis://127.0.0.1:${port}` }] });
    client.on('error', () => {});
    try {
      await client.connect();
      return client;
    } catch (error) {
      await new Promise((resolve) => setTimeout(resolve, 2));
    }
  }
}

async function count(client, seconds) {
  let rounds = 0;
  let wrong = 0;
  let held = 0;
  const end = Date.now() + 1000 * seconds;
  while (Date.now() < end) {
    rounds++;
    for (const key of keys) {
      wrong += Number((await client.incr(key)) !== rounds);
    }
  }
  for (const key of keys) {
    held += Number(await client.get(key));
  }
  return `${rounds} rounds, ${wrong} wrong, ${held} held`;
}

async function main() {
  console.log('ready');
  const client = await cluster(Number(process.argv[2]));
  console.log(await count(client, Number(process.argv[3])));
  await client.quit();
}

main().catch((error) => {
  console.error(error);
  process.exit(1);
});
