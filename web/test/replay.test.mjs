// What the native library answered to the inputs of the differential tests is asked again here. rust/differential/src/record.rs writes the file and says how.
import assert from 'node:assert/strict';
import { closeSync, existsSync, fstatSync, openSync, readFileSync, readSync } from 'node:fs';
import test from 'node:test';
import { fileURLToPath } from 'node:url';

import { Cimbrolau, LOSS, calls } from '../cimbrolau.mjs';

const WASM = new URL('../../target/wasm/cimbrolau.wasm', import.meta.url);
const ANSWERS = process.env.DIFFERENTIAL_ANSWERS ?? fileURLToPath(new URL('../../target/wasm/answers', import.meta.url));
const AT_LEAST = 200_000;
const SAME = 0xffffffff;

/** The file's bytes, read a part at a time: no more than `AHEAD` of it stand in memory. */
class Reader {
  static AHEAD = 1 << 24;
  constructor(path) {
    this.file = openSync(path);
    this.left = fstatSync(this.file).size;
    this.buffer = new Uint8Array(Reader.AHEAD);
    this.at = 0;
    this.end = 0;
  }
  /** The next bytes, which stay until the next are asked for. */
  bytes(count) {
    if (this.end - this.at < count) {
      this.buffer.copyWithin(0, this.at, this.end);
      this.end -= this.at;
      this.at = 0;
      while (this.end < count) {
        const got = readSync(this.file, this.buffer, this.end, Math.min(this.left, this.buffer.length - this.end));
        assert.ok(got > 0, 'the file of answers ends early');
        this.left -= got;
        this.end += got;
      }
      this.view = new DataView(this.buffer.buffer);
    }
    this.at += count;
    return this.buffer.subarray(this.at - count, this.at);
  }
  u8() {
    return this.bytes(1)[0];
  }
  u32() {
    this.bytes(4);
    return this.view.getUint32(this.at - 4, true);
  }
  u64() {
    this.bytes(8);
    return this.view.getBigUint64(this.at - 8, true);
  }
  close() {
    assert.equal(this.end - this.at + this.left, 0, 'bytes behind the end of the answers');
    closeSync(this.file);
  }
}

/** What lent memory holds before a call. */
function pattern(length, salt) {
  const bytes = new Uint8Array(length);
  for (let at = 0; at < length; at += 1) bytes[at] = at * 31 + salt;
  return bytes;
}

const same = (one, other) => Buffer.compare(one, other) === 0;

/** Looks that a call changes no byte of memory but those it may: between the lent things, and in those that are only read, all stays. */
const watch = {
  MARK: 0xc5,
  STACK: 2 ** 18,
  /** What stands on the stack's bytes before the first call, so that it shows how far down it went. */
  painted: false,
  before(memory, parts) {
    this.memory = memory;
    if (!this.painted) memory.fill(this.MARK, 0, this.STACK);
    this.painted = true;
    for (const part of parts) {
      if (!part) continue;
      memory.fill(this.MARK, part.start - 16, part.start);
      memory.fill(this.MARK, part.start + part.length, part.start + part.length + 16);
    }
  },
  after(memory, parts) {
    for (const part of parts) {
      if (!part) continue;
      for (const beside of [part.start - 16, part.start + part.length]) {
        for (let at = beside; at < beside + 16; at += 1) if (memory[at] !== this.MARK) throw new Error(`a byte beside lent memory was changed, at ${at}`);
      }
      if (part.kind === 'in' && !same(memory.subarray(part.start, part.start + part.length), part.bytes)) throw new Error('an input was changed');
    }
  },
};

/** Reads a record behind its name: what is given, what is answered, and what the lent memory holds then; `more` is lent before the last. */
function recorded(reader, call, first) {
  const given = [];
  const outputs = [];
  let lent = null;
  for (const { kind, name } of call.parameters) {
    if (kind === 'out') {
      const length = reader.u32();
      lent = pattern(length, reader.u8());
      outputs.push({ name, at: given.length, lent });
      given.push(lent.slice());
    } else if (kind === 'in' || kind === 'both') {
      const length = reader.u32();
      const bytes = length === SAME ? first.bytes : reader.bytes(length).slice();
      if (!given.some(ArrayBuffer.isView)) first.bytes = bytes;
      if (kind === 'both') lent = bytes.slice();
      given.push(kind === 'both' ? bytes.slice() : bytes);
    } else if (kind === 'card') {
      const [length, sections, devices, payloads] = [0, 1, 2, 3].map(() => reader.u64());
      given.push({ length, sections, devices, payloads });
    } else {
      given.push(reader.u64());
    }
  }
  const wanted = call.answer.map(({ type }) => {
    const number = reader.u64();
    return type === 'u64' ? number : type === 'i32' ? Number(BigInt.asIntN(32, number)) : Number(number);
  });
  if (call.parameters.some(({ kind }) => kind === 'both')) {
    const from = reader.u32();
    lent.set(reader.bytes(reader.u32()), from);
  } else if (wanted[0] === 0) {
    const number = (field) => wanted[call.answer.findIndex(({ name }) => name === field)];
    for (const output of outputs) output.lent.set(reader.bytes(output.name === 'losses' ? LOSS * number('losses') : number('place')));
  }
  return { given, wanted, lent, more: outputs.slice(0, -1) };
}

/** Whether a call answers as it should; what differs in words, or nothing. */
function compared(cimbrolau, call, { given, wanted, lent, more = [] }) {
  const answered = cimbrolau.raw[call.name](...given);
  for (let at = 0; at < wanted.length; at += 1) {
    const { name } = call.answer[at];
    if (answered[name] !== wanted[at]) return `${name} is ${answered[name]}, natively ${wanted[at]}`;
  }
  const at = call.parameters.findLastIndex(({ kind }) => kind === 'out' || kind === 'both');
  const differs = (lent && !same(given[at], lent)) || more.some((output) => !same(given[output.at], output.lent));
  return differs ? 'the lent bytes differ' : '';
}

test('the answers of the native library', () => {
  assert.ok(existsSync(ANSWERS), `${ANSWERS} is not there; tools/wasm-test makes it`);
  const cimbrolau = new Cimbrolau(new WebAssembly.Module(readFileSync(WASM)), { watch });
  const reader = new Reader(ANSWERS);
  const byName = new Map(calls.map((call) => [call.name, call]));
  const counts = new Map(calls.map((call) => [call.name, 0]));
  const first = { bytes: null };
  let inputs = 0n;
  let made = 0n;
  for (let mark = reader.u8(); mark !== 0xff; mark = reader.u8()) {
    const name = Buffer.from(reader.bytes(reader.u8())).toString();
    const call = byName.get(name);
    assert.ok(call, `${name} is not in the module's table`);
    const record = recorded(reader, call, first);
    const difference = compared(cimbrolau, call, record);
    if (difference) assert.fail(`${name}, call ${made}: ${difference}\ngiven ${record.given.map((one) => (ArrayBuffer.isView(one) ? Buffer.from(one).toString('hex') : typeof one === 'object' ? Object.values(one).join(' ') : one)).join(' ')}`);
    counts.set(name, counts.get(name) + 1);
    inputs += BigInt(mark);
    made += 1n;
  }
  assert.equal(inputs, reader.u64(), 'inputs');
  assert.equal(made, reader.u64(), 'calls');
  reader.close();
  const never = [...counts].filter(([, count]) => count === 0).map(([name]) => name);
  assert.deepEqual(never, [], 'calls that were never made');
  const deepest = watch.STACK - watch.memory.findIndex((byte) => byte !== watch.MARK);
  assert.ok(deepest < watch.STACK / 2, `${deepest} bytes of stack`);
  assert.ok(inputs >= AT_LEAST, `${inputs} inputs, fewer than ${AT_LEAST}`);
  console.log(`${inputs} inputs, ${made} calls, no difference; at most ${deepest} bytes of stack`);
});

test('a difference is found', () => {
  const cimbrolau = new Cimbrolau(new WebAssembly.Module(readFileSync(WASM)), { watch });
  const call = calls.find(({ name }) => name === 'canonical');
  const file = new Uint8Array([...Buffer.from('AEROSNAP'), 1, 0, 1, 0, 0, 0, 0, 0]);
  const lent = pattern(20, 7);
  const expected = lent.slice();
  expected.set(file);
  const record = (wanted, after) => ({ given: [file, lent.slice()], wanted, lent: after });
  assert.equal(compared(cimbrolau, call, record([0, 16], expected)), '');
  assert.equal(compared(cimbrolau, call, record([0, 15], expected)), 'place is 16, natively 15');
  assert.equal(compared(cimbrolau, call, record([1, 16], expected)), 'number is 0, natively 1');
  assert.equal(compared(cimbrolau, call, record([0, 16], lent)), 'the lent bytes differ');
  const behind = expected.slice();
  behind[19] ^= 1;
  assert.equal(compared(cimbrolau, call, record([0, 16], behind)), 'the lent bytes differ');
});

test('a byte beside lent memory is seen', () => {
  const parts = [{ kind: 'in', start: 16, length: 2, bytes: new Uint8Array([1, 2]) }, null];
  const memory = new Uint8Array(64);
  memory.set([1, 2], 16);
  watch.before(memory, parts);
  watch.after(memory, parts);
  for (const at of [0, 15, 18, 33]) {
    memory[at] ^= 1;
    assert.throws(() => watch.after(memory, parts), /beside lent memory/);
    memory[at] ^= 1;
  }
  memory[17] = 3;
  assert.throws(() => watch.after(memory, parts), /an input was changed/);
});
