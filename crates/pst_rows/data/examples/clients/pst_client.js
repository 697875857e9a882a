// Tests an object whose async functions run at once: other calls go on wherever one waits.
//
// `check` is for node:test. `serve` makes a client for `pst campaign --shared --client`, and `serveBranch` one for `pst campaign --client`. All make bursts
// (docs/clients.md).
const { execFile, execFileSync } = require("child_process");
const fs = require("fs");
const net = require("net");
const os = require("os");
const path = require("path");
const readline = require("readline");

// A call throws this if nobody knows whether it took effect, as after a timeout.
class Unknown extends Error {}

// The burst of a branch ends before the drive that it is in.
class BurstEnds extends Error {}

const ENDED = 2n ** 32n - 1n; // the step of a branch that has ended its burst
const hasFailed = (answer) => answer.startsWith("failed");
const isOutcome = (answer) => !hasFailed(answer) && !answer.startsWith("unknown");
const yields = () => new Promise(setImmediate);
const numbersTo = (last) => Array.from({ length: Number(last) }, (_, before) => before + 1);

// The words by which the branches of a worker wait for each other in a burst: those of a file, or of this process.
class Gate {
  constructor(branches, file) {
    this.branches = branches;
    this.fd = file === undefined ? undefined : fs.openSync(file, "r+");
    this.words = new BigUint64Array(512);
    this.word = new BigUint64Array(1);
  }
  set(branch, burst, step) {
    this.words[8 * branch] = (burst << 32n) + step;
    if (this.fd !== undefined) fs.writeSync(this.fd, this.words, 64 * branch, 8, 64 * branch);
  }
  get(branch) {
    if (this.fd === undefined) return this.words[8 * branch];
    // A word that is written meanwhile may be read in part.
    for (let last = -1n; ; last = this.word[0]) {
      fs.readSync(this.fd, this.word, 0, 8, 64 * branch);
      if (this.word[0] === last) return last;
    }
  }
  // Waits until branches have come to a step. Throws BurstEnds if one of them has ended the burst, or after two seconds.
  async wait(branches, burst, step) {
    const begun = performance.now();
    for (const branch of branches) {
      while (this.get(branch) < (burst << 32n) + step) {
        const waited = performance.now() - begun;
        if (waited > 2000) throw new BurstEnds();
        await (waited > 100 ? new Promise((resolve) => setTimeout(resolve, 1)) : yields());
      }
      if (this.get(branch) >= (burst << 32n) + ENDED) throw new BurstEnds();
    }
  }
}

// A branch, which answers the lines of its calls. `call(name, args)` makes a call.
class Branch {
  constructor(number, gate, call) {
    Object.assign(this, { number, gate, call });
  }

  // The line that answers a line.
  async answer(line) {
    const words = JSON.parse(line);
    if (words[0] === "burst" && words.length === 6 && words.slice(1, 3).every(Number.isInteger) && words.slice(3).every(Array.isArray)) {
      return this.burst(...words.slice(1));
    }
    const answer = await this.make(words);
    return line.startsWith('["reset"') && this.gate && isOutcome(answer) ? "burst" : answer;
  }

  // Makes a call. Returns the line that answers it.
  async make([name, ...args]) {
    try {
      return JSON.stringify((await this.call(name, args)) ?? null);
    } catch (error) {
      return `${error instanceof Unknown ? "unknown" : "failed"}: ${String(error).replace(/\n/g, " ")}`;
    }
  }

  // Makes calls up to one that has no outcome. Returns an answer for each, null if it was not made.
  async makeAll(calls) {
    const answers = calls.map(() => null);
    for (const [at, words] of calls.entries()) {
      answers[at] = await this.make(words);
      if (!isOutcome(answers[at])) break;
    }
    return answers;
  }

  // Makes the drives of a burst. Returns the line with the number of each one's answers, and each list of answers once.
  async burst(burst, drives, ...parts) {
    if (!this.gate || burst < 1 || burst >= 2 ** 32 || drives < 1 || drives > 1000) return "failed: this burst cannot be made";
    const [number, calls, places, lists] = [BigInt(burst), JSON.stringify(parts), [], new Map()];
    const limit = performance.now() + Number(process.env.PST_BURST_MILLISECONDS || Infinity);
    let size = 10;
    try {
      this.gate.set(this.number, number, 0n);
      for (let at = 0; at < drives; at++) {
        const text = JSON.stringify(await this.drive(number, BigInt(3 * at), ...JSON.parse(calls))); // a system may change its arguments
        size += 5 + (lists.has(text) ? 0 : Buffer.byteLength(text) + 1);
        if (size > 1000000) throw new BurstEnds();
        if (!lists.has(text)) lists.set(text, lists.size);
        places.push(lists.get(text));
        if (this.number === 1 && performance.now() > limit) throw new BurstEnds();
      }
    } catch (error) {
      this.gate.set(this.number, number, ENDED);
      if (!(error instanceof BurstEnds)) throw error;
    }
    return `[${[`[${places}]`, ...lists.keys()]}]`;
  }

  // Makes a drive: a reset after that of the branch before, the prefix, the branch at the same time as the others, the suffix.
  async drive(burst, step, prefix, branch, suffix) {
    const isFirst = this.number === 1;
    const everyone = numbersTo(this.gate.branches);
    await this.gate.wait(isFirst ? everyone : [this.number - 1], burst, isFirst ? step : step + 1n);
    if (!isOutcome(await this.make(["reset"]))) throw new BurstEnds();
    this.gate.set(this.number, burst, step + 1n);
    if (isFirst) await this.gate.wait(everyone, burst, step + 1n);
    const before = await this.makeAll(prefix);
    if (!before.every((answer) => answer !== null && isOutcome(answer))) throw new BurstEnds();
    this.gate.set(this.number, burst, step + 2n);
    await this.gate.wait(everyone, burst, step + 2n);
    const own = await this.makeAll(branch);
    this.gate.set(this.number, burst, step + 3n);
    if (isFirst) await this.gate.wait(everyone, burst, step + 3n);
    const failed = own.some((answer) => answer !== null && hasFailed(answer));
    return [...before, ...own, ...(failed ? suffix.map(() => null) : await this.makeAll(suffix))];
  }
}

// Answers the lines of all branches. Branch 1 makes a new system at each reset.
function answerBranches(pipes, branches, makeSystem) {
  let system;
  const sockets = [];
  const gate = new Gate(branches);
  for (let number = 1; number <= branches; number++) {
    const open = (end) => {
      const fd = fs.openSync(`${pipes}-${number}.${end}`, fs.constants.O_RDWR | fs.constants.O_NONBLOCK);
      sockets.push(new net.Socket({ fd, readable: end === "calls", writable: end === "answers" }));
      return sockets.at(-1);
    };
    const answers = open("answers");
    const branch = new Branch(number, gate, (name, args) => {
      if (name !== "reset") return system[name](...args);
      if (number === 1) system = makeSystem();
      return true;
    });
    readline.createInterface({ input: open("calls") }).on("line", async (line) => answers.write(`${await branch.answer(line)}\n`));
  }
  return sockets;
}

// Answers the calls of all branches on systems of this process.
function serve(makeSystem) {
  if (!process.env.PST_PIPES) {
    console.error(`PST_PIPES is not set: run this client by pst campaign --client 'node ${path.relative("", process.argv[1])}' --shared`);
    process.exit(1);
  }
  answerBranches(process.env.PST_PIPES, Number(process.env.PST_BRANCHES), makeSystem);
}

// Answers the calls of the branch of this process: `calls` has a function for each operation, by its name, and one for `reset`.
async function serveBranch(calls) {
  const { PST_BRANCH, PST_BRANCHES, PST_GATE } = process.env;
  const branch = new Branch(Number(PST_BRANCH), PST_GATE && new Gate(Number(PST_BRANCHES), PST_GATE), (name, args) => calls[name](...args));
  for await (const line of readline.createInterface({ input: process.stdin })) console.log(await branch.answer(line));
}

// Options by their names, of words as ["--seed", "7"] or ["--seed=7"], or of an object as { maxFailures: 1 }. Of two with one name the last counts.
function optionsOf(given) {
  const words = Array.isArray(given) ? given : Object.entries(given).map(([name, value]) => `--${name}=${value}`);
  const options = {};
  let name;
  for (const word of words) {
    if (!word.startsWith("-")) {
      options[name] = [word];
      continue;
    }
    const [start, ...value] = word.split(/=(.*)/s, 2);
    name = start.replace(/[A-Z]/g, "-$&").toLowerCase().replaceAll("_", "-");
    options[name] = value;
  }
  return options;
}

// Runs a campaign on systems of this process, and rejects with the smallest run that the model cannot explain, if there is any.
// `makeSystem` makes an object whose functions have the names of the operations. `options` are those of `pst campaign`, as in { trials: 20, maxFailures: 1 }.
// The variable PST names the program, if it is not `pst` on the path.
function check(model, makeSystem, options = {}) {
  const all = { "--workers": ["1"], "--branches": ["2"], ...optionsOf(options) };
  const [workers, branches] = [numbersTo(all["--workers"]), numbersTo(all["--branches"])];
  const folder = fs.mkdtempSync(path.join(os.tmpdir(), "pst-"));
  const pipes = workers.flatMap((worker) => branches.flatMap((branch) => [`${worker}-${branch}.calls`, `${worker}-${branch}.answers`]));
  execFileSync("mkfifo", pipes, { cwd: folder });
  const sockets = workers.flatMap((worker) => answerBranches(path.join(folder, `${worker}`), branches.length, makeSystem));
  const words = ["campaign", `shared:${folder}`, model, ...Object.entries(all).flat(2)];
  return new Promise((resolve, reject) => {
    execFile(process.env.PST ?? "pst", words, (error, report, explanation) => {
      sockets.forEach((socket) => socket.destroy());
      fs.rmSync(folder, { recursive: true });
      if (error?.code === "ENOENT") reject(new Error("no program pst: set PST or put it on PATH"));
      else error ? reject(new Error(report ? `${explanation}\n${report}` : `${error.message}${explanation}`)) : resolve(report);
    });
  });
}

module.exports = { Unknown, check, serve, serveBranch };
