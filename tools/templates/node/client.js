#!/usr/bin/env node
// A client of @NAME@.model. Call your own system in place of this class. A function has the name of its operation. For a server use
// `pst new NAME --server --client node`.
const { serve } = require("./pst_client.js");
const pause = () => new Promise((resolve) => setTimeout(resolve, 1));

class System {
  number = 0;
  last = Promise.resolve();
  async addNow(n) {
    const number = this.number + n;
    await pause();
    return (this.number = number);
  }
  async add(n) {
    return (this.last = this.last.then(() => this.addNow(n))); // with `return this.addNow(n);` a campaign finds a race
  }
  async get() { await this.last; return this.number; }
}

serve(() => new System());
