// Times the library in WebAssembly on one file, for `cargo measure wasm`: nanoseconds for check and for the canonical form, each alone in the module's memory
// and through cimbrolau.mjs, copies included. Four numbers in a line.
import { readFileSync } from 'node:fs';

import { Cimbrolau } from './cimbrolau.mjs';

const [, , wasm, path] = process.argv;
const module = new WebAssembly.Module(readFileSync(wasm));
const file = new Uint8Array(readFileSync(path));

const TURN = 200_000n;
const ROUNDS = 15;
const LONGEST = 2_000_000_000n;

/** The median over some rounds, in each of which the work is done often enough for the clock. */
function time(work) {
  let times = 1;
  const turn = () => {
    const start = process.hrtime.bigint();
    for (let at = 0; at < times; at += 1) work();
    return process.hrtime.bigint() - start;
  };
  // The engine compiles again what is called often: the first calls are not counted.
  for (const start = process.hrtime.bigint(); process.hrtime.bigint() - start < 200_000_000n; ) turn();
  while (turn() < TURN) times *= 2;
  const rounds = [];
  for (const start = process.hrtime.bigint(); rounds.length < ROUNDS || process.hrtime.bigint() - start < 300_000_000n; ) {
    rounds.push(Number(turn()) / times);
    if (process.hrtime.bigint() - start > LONGEST) break;
  }
  return rounds.sort((one, next) => one - next)[rounds.length >> 1];
}

const { exports } = new WebAssembly.Instance(module, {});
const start = Math.ceil(exports.__heap_base.value / 64) * 64 + 64;
const out = Math.ceil((start + file.length) / 64) * 64;
const missing = out + file.length - exports.memory.buffer.byteLength;
if (missing > 0) exports.memory.grow(Math.ceil(missing / 65536));
const memory = new Uint8Array(exports.memory.buffer);
memory.set(file, start);
memory.fill(1, out, out + file.length);
const length = BigInt(file.length);
const answer = start - 64;
const taken = () => {
  if (new DataView(memory.buffer).getUint32(answer, true) !== 0) throw new Error('refused');
};

const times = [() => exports.cimbrolau_check(answer, start, length), () => exports.cimbrolau_canonical(answer, start, length, out, length)].map((call) => {
  call();
  taken();
  return time(call);
});
const cimbrolau = new Cimbrolau(module);
console.log([times[0], time(() => cimbrolau.check(file)), times[1], time(() => cimbrolau.canonical(file))].join(' '));
