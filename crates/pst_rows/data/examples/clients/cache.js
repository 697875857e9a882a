#!/usr/bin/env node
// A client of examples/cache.model in one process (--shared): async functions whose `add` takes turns, or not (--racy).
const { serve } = require("./pst_client.js");
const pause = () => new Promise((resolve) => setTimeout(resolve, 1));

// A set whose functions wait, as those of a database do.
class Cache {
  kept = new Set();
  async has(key) { await pause(); return this.kept.has(key); }
  async clear() { this.kept.clear(); return true; }
  async add(key) {
    if (await this.has(key)) return false;
    await pause();
    this.kept.add(key);
    return true;
  }
}

// The same, but that no `add` begins before the one before it has ended.
class OrderedCache extends Cache {
  last = Promise.resolve();
  add(key) { return (this.last = this.last.then(() => super.add(key))); }
  clear() { return (this.last = this.last.then(() => super.clear())); }
}

module.exports = { Cache, OrderedCache };
if (require.main === module) serve(() => new (process.argv.includes("--racy") ? Cache : OrderedCache)());
