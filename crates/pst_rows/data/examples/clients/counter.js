#!/usr/bin/env node
// A client of examples/counter.model: a counter in a file, whose `inc` holds a lock, or none (--racy).
const fs = require("fs");
const file = `${process.env.TMPDIR ?? "/tmp"}/pst-node-${process.env.PST_WORKER}`;
const isRacy = process.argv.includes("--racy");

function locked(action) {
  for (;;) {
    try { fs.mkdirSync(file + ".lock"); break; } catch { /* another branch has it */ }
  }
  try { return action(); } finally { fs.rmdirSync(file + ".lock"); }
}

const get = () => Number(fs.readFileSync(file));
function set(number) {
  fs.writeFileSync(file + process.env.PST_BRANCH, String(number));
  fs.renameSync(file + process.env.PST_BRANCH, file);
  return number;
}
const inc = () => set(get() + 1);
const calls = { reset: () => set(0), get, inc: () => (isRacy ? inc() : locked(inc)) };
require("readline").createInterface({ input: process.stdin }).on("line", (line) => {
  const [name, ...args] = JSON.parse(line);
  console.log(JSON.stringify(calls[name](...args)));
});
