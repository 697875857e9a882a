// Lets other callbacks run at random before a promise of `fs` is fulfilled. `pst jitter` names this file in NODE_OPTIONS, so Node loads it when it starts.
//
// PST_JITTER_PAUSES has the longest pauses in microseconds, as 5,50,300, by turns. PST_JITTER_SEED chooses the pauses, with PST_WORKER, PST_BRANCH and the
// number of a worker of `cluster`.
'use strict';

const CALLS_FOR_A_PAUSE = 4;
const number = (name) => Number(process.env[name]) || 0;
const longest = (process.env.PST_JITTER_PAUSES || '').split(',').map(Number).filter((pause) => pause > 0);
let state = ((number('PST_JITTER_SEED') * 16 + number('PST_WORKER')) * 16 + number('PST_BRANCH')) * 256 + number('NODE_UNIQUE_ID');
let turn = 0;

// A random number under 1 (SplitMix32).
function drawn() {
  state = (state + 0x9e3779b9) | 0;
  let word = Math.imul(state ^ (state >>> 16), 0x21f0aaad);
  word = Math.imul(word ^ (word >>> 15), 0x735a2d97);
  return ((word ^ (word >>> 15)) >>> 0) / 2 ** 32;
}

// Lets other callbacks run, at one call in four, until a time is over.
async function disturb() {
  if (drawn() * CALLS_FOR_A_PAUSE >= 1) return;
  const end = performance.now() + (longest[turn++ % longest.length] * drawn()) / 1000;
  do await new Promise(setImmediate);
  while (performance.now() < end);
}

// Puts a function that pauses in place of each function of an object whose result is a promise.
function disturbAll(object) {
  for (const [name, call] of Object.entries(object)) {
    if (typeof call !== 'function') continue;
    object[name] = function (...words) {
      const result = call.apply(this, words);
      return result instanceof Promise ? result.finally(disturb) : result;
    };
  }
}

if (longest.length > 0) {
  disturbAll(require('fs').promises);
  require('module').syncBuiltinESMExports();
}
