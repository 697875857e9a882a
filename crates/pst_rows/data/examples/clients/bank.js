#!/usr/bin/env node
// A client of examples/bank.model: a bank over HTTP. It loses one answer in forty, and is late with one call in forty, so the client, which waits 50 ms, says
// that the outcome of the call is unknown. The client of branch 1 runs the server too. With --racy a transfer waits between the look and the move.
const fs = require("fs");
const http = require("http");
const readline = require("readline");

const socketPath = `${process.env.TMPDIR ?? "/tmp"}/pst-bank-${process.env.PST_WORKER}`;
const isRacy = process.argv.includes("--racy");
const LIMIT = 50; // milliseconds
const pause = (milliseconds) => new Promise((resolve) => setTimeout(resolve, milliseconds));

// ---- the server

const operations = {
  async transfer(accounts, from, to, amount) {
    if (accounts[from] < amount) return false;
    const left = accounts[from] - amount;
    if (isRacy) await pause(1);
    accounts[from] = left;
    accounts[to] += amount;
    return true;
  },
  balance: (accounts, account) => accounts[account],
};

// A call that lands late finds the accounts of its own run, which a reset leaves behind.
let accounts;
async function answer(request, response) {
  const [name, ...args] = JSON.parse(decodeURIComponent(request.url.slice(1)));
  if (name === "reset") {
    accounts = [10, 10];
    return response.end("true");
  }
  const own = accounts, chance = Math.random();
  if (chance < 0.025) await pause(2 * LIMIT);
  const result = await operations[name](own, ...args);
  if (chance >= 0.05) response.end(JSON.stringify(result));
}

// ---- the client

const agent = new http.Agent({ keepAlive: true });

// The answer to a line, or what became of the call.
function ask(line) {
  return new Promise((resolve) => {
    const request = http.get({ agent, socketPath, path: `/${encodeURIComponent(line)}` }, async (response) => {
      let text = "";
      for await (const part of response) text += part;
      resolve(text);
    });
    const timer = line.startsWith('["reset"') ? undefined : setTimeout(() => { resolve("unknown timeout"); request.destroy(); }, LIMIT);
    request.on("error", (error) => resolve(`unknown ${error.code}`)).on("close", () => clearTimeout(timer));
  });
}

async function serveLines() {
  for await (const line of readline.createInterface({ input: process.stdin })) console.log(await ask(line));
  process.exit();
}

if (process.env.PST_BRANCH === "1") {
  fs.rmSync(socketPath, { force: true });
  http.createServer(answer).listen(socketPath, serveLines);
} else {
  serveLines();
}
