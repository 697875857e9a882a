#!/usr/bin/env node
// A client of @NAME@.model. `pst` starts one for each branch of each worker. Call your own server in place of this file.
//
// A call is a line as ["add",10], and its answer is one line of JSON. Print nothing else on standard output; standard error is free.
const fs = require("fs");
const readline = require("readline");
const pause = () => new Promise((resolve) => setTimeout(resolve, 1));

// Each worker tests a system of its own: a database, a prefix of keys or a port. Its number is PST_WORKER, from 1.
const file = `@NAME@-${process.env.PST_WORKER}`;

// Runs an action alone: a folder is the lock.
async function locked(action) {
  for (;;) {
    try { fs.mkdirSync(`${file}.lock`); break; } catch { await pause(); }
  }
  try { return await action(); } finally { fs.rmdirSync(`${file}.lock`); }
}

function store(number) {
  fs.writeFileSync(`${file}.${process.env.PST_BRANCH}`, String(number));
  fs.renameSync(`${file}.${process.env.PST_BRANCH}`, file);
  return number;
}

const get = async () => Number(fs.readFileSync(file));

async function addNow(n) {
  const number = await get();
  await pause();
  return store(number + n);
}

// Brings back the initial state of the model, also after a client that ended with the lock. Each client of a worker is asked for it before each run.
async function reset() {
  fs.rmSync(`${file}.lock`, { recursive: true, force: true });
  store(0);
}

const calls = {
  reset,
  get,
  add: (n) => locked(() => addNow(n)), // with `add: addNow,` a campaign finds a race
};

async function main() {
  for await (const line of readline.createInterface({ input: process.stdin })) {
    const [name, ...args] = JSON.parse(line);
    console.log(JSON.stringify((await calls[name](...args)) ?? null));
  }
}

main();
