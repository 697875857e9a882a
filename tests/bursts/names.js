#!/usr/bin/env node
// Names that branches claim, for tests/bursts.py: in this process (--shared), or each a file. A claim looks and stores at once, or not (--racy).
const fs = require("fs");
const { Unknown, serve, serveBranch } = require("../../examples/clients/pst_client.js");

const isRacy = process.argv.includes("--racy");
const folder = `${process.env.TMPDIR}/names-${process.env.PST_WORKER}`;
let calls = 0;

// What both forms have.
class Calls {
  count = () => ++calls;
  text = (size) => "x".repeat(size);
  fail = () => { throw new Error("as asked"); };
  unknown = () => { throw new Unknown("as asked"); };
  end = () => process.exit(3);
}

// Other calls go on where a claim waits, as for a page that is not in memory.
class Names extends Calls {
  names = new Set();
  claimed = (name) => this.names.has(name);
  async claim(name) {
    if (this.names.has(name)) return false;
    if (isRacy && Math.random() < 0.01) await fs.promises.access("/");
    this.names.add(name);
    return true;
  }
}

// A name is a file. Two calls of the system look and make it, or one.
class Files extends Calls {
  reset = () => {
    if (process.env.PST_BRANCH !== "1") return;
    fs.mkdirSync(folder, { recursive: true });
    for (const name of fs.readdirSync(folder)) fs.unlinkSync(`${folder}/${name}`);
  };
  claimed = (name) => fs.existsSync(`${folder}/${name}`);
  claim = (name) => {
    if (isRacy && this.claimed(name)) return false;
    try {
      fs.closeSync(fs.openSync(`${folder}/${name}`, isRacy ? "w" : "wx"));
      return true;
    } catch {
      return false;
    }
  };
}

if (process.env.PST_PIPES) serve(() => new Names());
else serveBranch(new Files());
