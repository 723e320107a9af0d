// The module beside the header, the card of refusals and its own types; the calls by hand; the bounds of memory.
import assert from 'node:assert/strict';
import { readFileSync } from 'node:fs';
import test from 'node:test';
import { Worker } from 'node:worker_threads';

import { Cimbrolau, CPU_FIELDS, MESSAGES, MMU_FIELDS, MOST_LENT, MOST_MEMORY, REFUSALS, Refusal, TooLarge, calls, load } from '../cimbrolau.mjs';

const read = (path) => readFileSync(new URL(`../../${path}`, import.meta.url));
const text = (path) => read(path).toString();
const bytes = (path) => new Uint8Array(read(path));
const header = text('include/cimbrolau.h');
const module = new WebAssembly.Module(read('target/wasm/cimbrolau.wasm'));
const cimbrolau = await load(module);
const panel = bytes('samples/panel.aerosnap');
const region = bytes('samples/panel.region');
const ascii = (string) => new TextEncoder().encode(string);
const EMPTY = new Uint8Array([...ascii('AEROSNAP'), 1, 0, 1, 0, 0, 0, 0, 0]);

const refused = (name, place) => (error) => error instanceof Refusal && error.name === name && error.place === place;

// Calls over an array of structs. JavaScript has none, and makes each call over the bytes of their records, which answers the same.
const OF_STRUCTS = ['add_devices_of'];

test('the module imports nothing and exports its memory and every call', () => {
  assert.deepEqual(WebAssembly.Module.imports(module), []);
  const names = WebAssembly.Module.exports(module).map(({ name }) => name);
  const wanted = ['memory', '__heap_base', ...calls.map(({ name }) => `cimbrolau_${name}`), ...OF_STRUCTS.map((name) => `cimbrolau_${name}`)];
  assert.deepEqual(names.sort(), wanted.sort());
});

test('the table of calls is the header', () => {
  const declared = [...header.matchAll(/^struct cimbrolau_(\w+) cimbrolau_(\w+)\((.*)\);$/gm)].map(([, answer, name, list]) => {
    const words = list.split(', ').map((word) => word.match(/^(.*?)(\w+)$/).slice(1).map((part) => part.trim()));
    const parameters = words.flatMap(([type, plain], at) => {
      if (type === 'size_t') {
        const [before, table] = words[at - 1];
        assert.equal(plain, `${table}_${before.startsWith('const struct') ? 'count' : 'length'}`);
        return [];
      }
      if (/^const struct \w+ \*$/.test(type)) return [{ name: plain, kind: 'structs' }];
      if (type === 'const uint8_t *') return [{ name: plain, kind: 'in' }];
      if (type === 'uint8_t *') return [{ name: plain, kind: at === 0 ? 'both' : 'out' }];
      if (type === 'struct cimbrolau_card') return [{ name: plain, kind: 'card' }];
      return [{ name: plain, kind: type.replace(/^uint(\d+)_t$/, 'u$1') }];
    });
    return { answer, name, parameters };
  });
  const ofStructs = ({ parameters }) => parameters.some(({ kind }) => kind === 'structs');
  assert.deepEqual(declared.filter(ofStructs).map(({ name }) => name), OF_STRUCTS);
  for (const { name, answer, parameters } of declared.filter(ofStructs)) {
    const same = parameters.map((parameter) => (parameter.kind === 'structs' ? { ...parameter, kind: 'in' } : parameter));
    assert.deepEqual(declared.find((call) => `${call.name}_of` === name), { answer, name: name.slice(0, -3), parameters: same });
  }
  const overBytes = declared.filter((call) => !ofStructs(call));
  assert.deepEqual(
    calls.map(({ name, parameters }) => ({ name, parameters })).sort((one, next) => (one.name < next.name ? -1 : 1)),
    overBytes.map(({ name, parameters }) => ({ name, parameters })).sort((one, next) => (one.name < next.name ? -1 : 1)),
  );
  const bodyOf = (struct) => header.match(new RegExp(`^struct cimbrolau_${struct} \\{\\n([^}]*)\\}`, 'm'))[1];
  for (const { answer, name } of overBytes) {
    const body = bodyOf(answer).replace(/^ +struct cimbrolau_card card;\n/m, bodyOf('card'));
    const fields = [...body.matchAll(/^ +(u?int\d+)_t ([\w, ]+);/gm)].flatMap(([, type, list]) => list.split(', ').map((field) => `${field} ${type}`));
    const types = { u32: 'uint32', i32: 'int32', u64: 'uint64', size: 'uint64' };
    assert.deepEqual(calls.find((call) => call.name === name).answer.map((field) => `${field.name} ${types[field.type]}`), fields, name);
  }
});

test('the refusals are those of the header and of the card', () => {
  const declared = [...header.matchAll(/^ {4}CIMBROLAU_([A-Z]+) = (\d+)/gm)].map(([, name, number]) => [Number(number), name]);
  assert.deepEqual(REFUSALS.map(([number, name]) => [number, name]), declared.filter(([number]) => number !== 0));
  const card = [...text('docs/REFUSALS.md').matchAll(/^\| (\d+) \| ([A-Z]+) \|/gm)].map(([, number, name]) => [Number(number), name]);
  assert.deepEqual(REFUSALS.map(([number, name]) => [number, name]), card);
  const rust = [...text('rust/cimbrolau/src/refusal.rs').matchAll(/^ {4}\(Kind::\w+, "([A-Z]+)", "(.*)"\),$/gm)].map(([, name, words]) => [name, words]);
  assert.deepEqual(REFUSALS.map(([, name, words]) => [name, words]), rust);
});

test('the fields and the kinds of messages are those of the header', () => {
  const fields = (state) => [...header.matchAll(new RegExp(`^ {4}CIMBROLAU_${state}_(\\w+)`, 'gm'))].map(([, name]) => name);
  assert.deepEqual(CPU_FIELDS, fields('CPU'));
  assert.deepEqual(MMU_FIELDS, fields('MMU'));
  const kinds = [...header.matchAll(/^ \* {3}0x([0-9A-F]{4}) {2}(\w+)(.*)$/gm)].map(([, tag, kind, rest]) => {
    const words = [...rest.matchAll(/u(\d+) (\w+)/g)].map(([, bits, name]) => [name, Number(bits)]);
    return [Number(`0x${tag}`), kind, words, / bytes$/.test(rest) && !/u32 bytes$/.test(rest) ? 'data' : / UTF-8$/.test(rest) ? 'text' : undefined];
  });
  assert.deepEqual(MESSAGES, kinds);
});

test('the types name every call', () => {
  const types = text('web/cimbrolau.d.ts');
  for (const { name, parameters } of calls) {
    const [, list] = types.match(new RegExp(`^  ${name}\\((.*)\\): `, 'm')) ?? [];
    assert.equal(list?.replace(/: [^,]+/g, ''), parameters.map((parameter) => parameter.name).join(', '), name);
  }
  const own = Object.getOwnPropertyNames(Cimbrolau.prototype).filter((name) => name !== 'constructor');
  for (const name of own) assert.match(types, new RegExp(`^  (readonly )?${name}[(:]`, 'm'), name);
  const camel = (name) => name.replace(/_(\w)/g, (_, letter) => letter.toUpperCase());
  for (const { name } of calls) assert.ok(own.includes(camel(name)), name);
});

test('a file: its tables, its form, and edits', () => {
  cimbrolau.check(panel);
  assert.deepEqual(cimbrolau.sections(panel).map(({ id }) => id), [4096, 6, 4, 5, 1]);
  assert.deepEqual(cimbrolau.sections(cimbrolau.canonical(panel)).map(({ id }) => id), [1, 4, 5, 6, 4096]);
  const [disk] = cimbrolau.disks(panel);
  assert.equal(disk.base, 'panel.img');
  assert.equal(disk.overlay, 'panel-night.overlay');
  const form = cimbrolau.canonical(panel);
  assert.deepEqual(cimbrolau.canonical(form), form);
  const key = { id: 77, version: 1, flags: 0 };
  const card = cimbrolau.open(panel);
  assert.deepEqual(card, { length: 424, sections: 5, devices: 4, payloads: 52 });
  const more = cimbrolau.addDevice(panel, card, key, new Uint8Array([1, 2, 3]));
  assert.deepEqual(more.card, { length: 443, sections: 5, devices: 5, payloads: 55 });
  assert.equal(cimbrolau.devices(more.file).length, cimbrolau.devices(panel).length + 1);
  assert.deepEqual(cimbrolau.removeDevice(more.file, more.card, key), { file: form, card });
  const empty = cimbrolau.addDevice(panel, card, key, new Uint8Array());
  assert.deepEqual(cimbrolau.replaceDevice(empty.file, empty.card, key, new Uint8Array([1, 2, 3])), more);
  const disk900 = cimbrolau.addDisk(panel, card, 900, 'base', 'ü');
  assert.deepEqual(cimbrolau.open(disk900.file), disk900.card);
  assert.deepEqual(cimbrolau.removeDisk(disk900.file, disk900.card, 900), { file: form, card });
  assert.throws(() => cimbrolau.addDevice(more.file, more.card, key, new Uint8Array()), refused('HAVE', 0));
  assert.throws(() => cimbrolau.removeDisk(panel, card, 900), refused('ABSENT', 0));
});

test('many devices at once, or none of them', () => {
  const device = (id, ...payload) => ({ id, version: 1, flags: 0, payload: new Uint8Array(payload) });
  const card = cimbrolau.open(panel);
  const devices = [device(77, 1, 2, 3), device(5), device(900, 4)];
  const all = cimbrolau.addDevices(panel, card, devices);
  let one = { file: panel, card };
  for (const { payload, ...key } of devices) one = cimbrolau.addDevice(one.file, one.card, key, payload);
  assert.deepEqual(all, one);
  assert.deepEqual(cimbrolau.addDevices(panel, card, devices.toReversed()), one);
  assert.deepEqual(cimbrolau.addDevices(panel, card, []), { file: cimbrolau.canonical(panel), card });
  const told = (name, index) => (error) => refused(name, 0)(error) && error.index === index;
  assert.throws(() => cimbrolau.addDevices(panel, card, [...devices, device(5)]), told('HAVE', 3));
  assert.throws(() => cimbrolau.addDevices(panel, card, [device(3)]), told('HAVE', 0));
  assert.throws(() => cimbrolau.addDevices(panel.slice(0, 9), card, devices), told('SHORT', 0));
  assert.throws(() => cimbrolau.addDevices(panel, { ...card, devices: 4094 }, devices), told('CARD', 0));
  assert.throws(() => cimbrolau.addDevices(panel, card, [{ ...device(3), version: 65536 }]), TypeError);
  // As C has it: an entry whose payload lies outside, and the room of each file on the way. A part record is no entry.
  const table = new Uint8Array([77, 0, 0, 0, 1, 0, 0, 0, 0, 0, 0, 0, 0, 0, 0, 0, 2, 0, 0, 0, 0, 0, 0, 0, 78, 0, 0, 0, 1, 0, 0, 0, 2, 0, 0, 0, 0, 0, 0, 0, 1, 0, 0, 0, 0, 0, 0, 0, 79, 0]);
  const asked = (store, out) => {
    const { number, index, place } = cimbrolau.raw.add_devices(panel, card, table, new Uint8Array(store), out);
    return [number, index, place];
  };
  assert.deepEqual(asked(3, 459), [0, 0, 459]);
  assert.deepEqual(asked(2, 459), [26, 1, 0]);
  assert.deepEqual(asked(3, 458), [16, 1, 459]);
  const out = new Uint8Array(441).fill(7);
  assert.deepEqual(asked(3, out), [16, 0, 442]);
  assert.ok(out.every((byte) => byte === 7));
});

test('an untrue card moves as well, up to its bounds, and a refusal hands it back', () => {
  const key = { id: 77, version: 1, flags: 0 };
  const card = cimbrolau.open(panel);
  const { file } = cimbrolau.addDevice(panel, card, key, new Uint8Array(3));
  const other = cimbrolau.addDevice(panel, { length: 1000n, sections: 64, devices: 0, payloads: 0n }, key, new Uint8Array(3));
  assert.deepEqual(other, { file, card: { length: 1019, sections: 64, devices: 1, payloads: 3 } });
  for (const number of [{ devices: 4096 }, { length: 2 ** 30 }, { payloads: 2n ** 64n - 1n }]) {
    const untrue = { ...card, ...number };
    assert.throws(() => cimbrolau.addDevice(panel, untrue, key, new Uint8Array(3)), refused('CARD', 0));
    const out = new Uint8Array(500).fill(7);
    const { number: refusal, length, sections, devices, payloads } = cimbrolau.raw.add_device(panel, untrue, 77, 1, 0, new Uint8Array(3), out);
    assert.deepEqual([refusal, length, sections, devices, payloads], [28, ...['length', 'sections', 'devices', 'payloads'].map((name) => BigInt(untrue[name]))]);
    assert.ok(out.every((byte) => byte === 7));
  }
  // An answer is a card as well.
  const opened = cimbrolau.raw.open(panel);
  assert.equal(cimbrolau.raw.remove_device(panel, opened, 3, 1, 0, 500).devices, 3n);
  assert.throws(() => cimbrolau.removeDisk(panel, undefined, 1), TypeError);
  assert.throws(() => cimbrolau.removeDisk(panel, { ...card, length: -1 }, 1), TypeError);
  assert.throws(() => cimbrolau.removeDisk(panel, { ...card, length: 2n ** 64n }, 1), TypeError);
});

test('salvage', () => {
  const form = cimbrolau.canonical(panel);
  assert.deepEqual(cimbrolau.salvage(panel), { file: form, losses: [] });
  // A key that comes again in DEVICES, and the end of META cut off.
  const damaged = panel.slice(0, 410);
  damaged[209] = 3;
  const { file, losses } = cimbrolau.salvage(damaged);
  cimbrolau.check(file);
  assert.deepEqual(cimbrolau.sections(file).map(({ id }) => id), [5, 6, 4096]);
  assert.deepEqual(losses, [
    { start: 126, bytes: 136, number: 13, name: 'KEY', words: 'key again' },
    { start: 358, bytes: 52, number: 7, name: 'CUT', words: 'section passes the end' },
  ]);
  assert.throws(() => cimbrolau.salvage(panel.slice(0, 9)), refused('SHORT', 0));
  // More losses than the first call has room for: sections of RAM of a version that is not taken.
  const many = new Uint8Array(16 + 16 * 1000);
  many.set(EMPTY);
  for (let at = 16; at < many.length; at += 16) many.set([6, 0, 0, 0, 9], at);
  const rescued = cimbrolau.salvage(many);
  assert.deepEqual(rescued.file, EMPTY);
  assert.deepEqual(rescued.losses.map(({ start, bytes, name }) => [start, bytes, name]), Array.from({ length: 1000 }, (_, at) => [16 + 16 * at, 16, 'SECVER']));
  // Both rooms, and outputs that a refusal leaves as they were.
  const [out, records] = [file.length, 48].map((length) => new Uint8Array(length).fill(7));
  assert.deepEqual(cimbrolau.raw.salvage(damaged, out.subarray(1), records), { number: 16, place: file.length, losses: 0 });
  assert.deepEqual(cimbrolau.raw.salvage(damaged, out, records.subarray(1)), { number: 16, place: 48, losses: 0 });
  assert.ok([...out, ...records].every((byte) => byte === 7));
  assert.deepEqual(cimbrolau.raw.salvage(damaged, out, records), { number: 0, place: file.length, losses: 2 });
  assert.deepEqual(out, file);
});

test('refusals have a number, a name, a place and words', () => {
  const cut = panel.slice(0, -1);
  assert.throws(() => cimbrolau.check(cut), (error) => {
    assert.ok(error instanceof Refusal && error instanceof Error);
    assert.deepEqual([error.number, error.name, typeof error.place, error.words], [7, 'CUT', 'number', 'section passes the end']);
    assert.equal(String(error), `7 CUT at ${error.place}: section passes the end`);
    return true;
  });
  assert.deepEqual(cimbrolau.raw.canonical(panel, new Uint8Array(3)), { number: 16, place: cimbrolau.canonical(panel).length });
  assert.throws(() => new Refusal(27, 0), /answered 27/);
});

test('wrappers', () => {
  const wrapper = new Uint8Array([...ascii('AERO'), 1, 0, 0, 0, ...ascii('DSKC'), 1, 0, 0, 0, 1, 0, 0, 0, 250, 0, 0, 0, ...ascii('AHCP'), 2, 0, 0, 0, 7, 8]);
  cimbrolau.wrapperCheck(wrapper);
  assert.deepEqual(cimbrolau.controllers(wrapper), [{ address: 250, tag: ascii('AHCP'), offset: 32, length: 2, position: 0 }]);
  assert.deepEqual(cimbrolau.wrapperCanonical(wrapper), wrapper);
  assert.throws(() => cimbrolau.wrapperCheck(wrapper.slice(0, 8)), refused('SHORT', 0));
});

test('readiness', () => {
  const all = [3, 4, 6, 13, 16, 17, 21].map((id) => ({ what: 'device', id }));
  const disks = [0, 1].map((id) => ({ what: 'disk', id }));
  assert.deepEqual(cimbrolau.ready(EMPTY), [...all, ...disks]);
  let { file, card } = { file: EMPTY, card: cimbrolau.open(EMPTY) };
  const wrapper = new Uint8Array([...ascii('AERO'), 1, 0, 0, 0, ...ascii('DSKC'), 1, 0, 0, 0, 0, 0, 0, 0]);
  for (const id of [3, 4, 6, 13, 16, 17, 2]) ({ file, card } = cimbrolau.addDevice(file, card, { id, version: 1, flags: 0 }, id === 6 ? wrapper : new Uint8Array()));
  assert.deepEqual(cimbrolau.ready(file), disks);
  for (const { id } of disks) ({ file, card } = cimbrolau.addDisk(file, card, id, 'base', ''));
  assert.deepEqual(cimbrolau.ready(file), []);
  assert.throws(() => cimbrolau.ready(file.slice(0, 9)), refused('SHORT', 0));
});

test('messages of every kind', () => {
  for (const [tag, kind, fields, data] of MESSAGES) {
    const message = { tag, kind };
    for (const [name, bits] of fields) message[name] = bits === 64 ? 2n ** 64n - 1n : 1;
    if (message.ok) message.error = 0;
    if (data === 'data') message.data = new Uint8Array([9, 8]);
    if (data === 'text') message.text = 'Wärme\uFEFF';
    if (message.size) message.size = 4;
    assert.deepEqual(cimbrolau.messageRead(cimbrolau.messageWrite(message)), message);
  }
  assert.throws(() => cimbrolau.messageWrite({ kind: 'IrqRaise', irq: 256 }), refused('VALUE', 0));
  assert.throws(() => cimbrolau.messageWrite({ kind: 'FrameReady', frame: -1n }), TypeError);
  assert.throws(() => cimbrolau.messageRead(new Uint8Array([9, 9])), refused('TAG', 0));
});

test('rings over shared memory', () => {
  const shared = new Uint8Array(new SharedArrayBuffer(region.length));
  shared.set(region);
  cimbrolau.regionCheck(shared);
  const before = cimbrolau.ringReport(shared, 0);
  const pair = cimbrolau.ringReserve(shared, 0, 5);
  assert.equal(cimbrolau.ringReport(shared, 0).reserve, before.reserve + 4 * Math.ceil((4 + 5) / 4));
  cimbrolau.ringFill(shared, 0, pair, ascii('valve'));
  const taken = [];
  const drain = () => {
    try {
      for (;;) taken.push(new TextDecoder().decode(cimbrolau.ringTake(shared, 0).slice()));
    } catch (error) {
      if (!refused('EMPTY', 0)(error)) throw error;
    }
  };
  drain();
  assert.ok(!taken.includes('valve'), 'not committed yet');
  const { commit, reserve } = cimbrolau.ringReport(shared, 0);
  cimbrolau.ringCommit(shared, 0, { start: commit >>> 0, end: reserve >>> 0 });
  drain();
  assert.equal(taken.at(-1), 'valve');
});

test('two threads take turns on one region', async () => {
  const COUNT = 300;
  // One queue of 256 bytes: the header, its descriptor, its ring.
  const words = [0x43504941, 1, 32 + 16 + 256, 1, 0, 32, 256, 0, 0, 0, 0, 256];
  const shared = new SharedArrayBuffer(32 + 16 + 256);
  new Uint32Array(shared).set(words);
  const turn = new Int32Array(new SharedArrayBuffer(4));
  const locked = `(turn, work) => {
    while (Atomics.compareExchange(turn, 0, 0, 1) !== 0) Atomics.wait(turn, 0, 1);
    try { return work(); } finally { Atomics.store(turn, 0, 0); Atomics.notify(turn, 0); }
  }`;
  const taker = `
    import { parentPort, workerData } from 'node:worker_threads';
    import { Cimbrolau } from '${new URL('../cimbrolau.mjs', import.meta.url)}';
    const { module, shared, turn, count } = workerData;
    const cimbrolau = new Cimbrolau(module);
    const region = new Uint8Array(shared);
    const locked = ${locked};
    const taken = [];
    while (taken.length < count) {
      try { taken.push(new TextDecoder().decode(locked(turn, () => cimbrolau.ringTake(region, 0)))); } catch (error) { if (error.name !== 'EMPTY') throw error; }
    }
    parentPort.postMessage(taken);`;
  const worker = new Worker(new URL(`data:text/javascript,${encodeURIComponent(taker)}`), { workerData: { module, shared, turn, count: COUNT } });
  const ended = new Promise((resolve, reject) => worker.once('message', resolve).once('error', reject));
  const producing = eval(locked);
  const queue = new Uint8Array(shared);
  const sent = Array.from({ length: COUNT }, (_, at) => `valve ${at}`.repeat(1 + (at % 5)));
  for (const payload of sent) {
    for (let done = false; !done; ) {
      try {
        producing(turn, () => {
          const pair = cimbrolau.ringReserve(queue, 0, payload.length);
          cimbrolau.ringFill(queue, 0, pair, ascii(payload));
          cimbrolau.ringCommit(queue, 0, pair);
        });
        done = true;
      } catch (error) {
        if (error.name !== 'FULL') throw error;
        await new Promise(setImmediate);
      }
    }
  }
  assert.deepEqual(await ended, sent);
});

test('states', () => {
  const state = new Uint8Array(1183);
  cimbrolau.cpuSet(state, 'GPR', 3, new Uint8Array([1, 2, 3, 4, 5, 6, 7, 8]));
  assert.deepEqual(cimbrolau.cpuField(state, 'GPR', 3), new Uint8Array([1, 2, 3, 4, 5, 6, 7, 8]));
  assert.throws(() => cimbrolau.cpuSet(state, 'MODE', 0, new Uint8Array([9])), (error) => error.name === 'VALUE');
  assert.throws(() => cimbrolau.cpuField(state, 'A20'), refused('SHAPE', 0));
  const mmu = new Uint8Array(264);
  cimbrolau.mmuSet(mmu, 'CR', 0, new Uint8Array([1, 0, 0, 0, 0, 0, 0, 128]));
  assert.equal(cimbrolau.mmuField(mmu, 'CR', 0)[7], 128);
  assert.equal(cimbrolau.access(0x1_0093).unusable, 1);
  assert.throws(() => cimbrolau.cpuField(state, 'NO'), TypeError);
});

test('arguments that are none', () => {
  assert.throws(() => cimbrolau.check([1, 2]), TypeError);
  assert.throws(() => cimbrolau.raw.check(), TypeError);
  assert.throws(() => cimbrolau.removeDevice(panel, cimbrolau.open(panel), { id: 2 ** 32, version: 0, flags: 0 }), TypeError);
  assert.throws(() => cimbrolau.removeDevice(panel, cimbrolau.open(panel), { id: 1, version: 65536, flags: 0 }), TypeError);
  assert.throws(() => cimbrolau.removeDevice(panel, cimbrolau.open(panel), { id: 1.5, version: 0, flags: 0 }), TypeError);
});

test('memory grows for a large file and is given back', () => {
  const own = new Cimbrolau(module);
  own.check(EMPTY);
  const small = own.held;
  assert.ok(small > 0 && small < 2 ** 20);
  const large = new Uint8Array(2 ** 28);
  large.set(EMPTY);
  large.set([6, 0, 0, 0, 1, 0, 0, 0], 16); // RAM, to the end
  new DataView(large.buffer).setBigUint64(24, BigInt(large.length - 32), true);
  own.check(large);
  assert.equal(own.held, 0);
  assert.equal(Buffer.compare(own.canonical(large), large), 0);
  assert.equal(own.held, 0);
  own.check(EMPTY);
  assert.equal(own.held, small);
});

test('what 32 bits do not reach is a clear error, and the library stays usable', () => {
  const own = new Cimbrolau(module);
  const said = (words) => (error) => error instanceof TooLarge && words.test(error.message);
  assert.throws(() => own.raw.canonical(EMPTY, MOST_LENT + 1), said(/out: 2,147,483,648 bytes; .* at most 2,147,483,647/));
  assert.throws(() => own.raw.add_device(EMPTY, own.raw.open(EMPTY), 1, 1, 1, new Uint8Array(2 ** 31), 5), said(/payload: 2,147,483,648 bytes/));
  const half = new Uint8Array(MOST_LENT);
  assert.throws(() => own.raw.add_device(half, own.raw.open(EMPTY), 1, 1, 1, half, MOST_LENT), said(/at once; addresses of 32 bits have at most 4,294,901,760/));
  own.check(EMPTY);
});

test('everywhere in the memory, up to its last address', () => {
  const { exports } = new WebAssembly.Instance(module, {});
  const end = MOST_MEMORY;
  exports.memory.grow((end - exports.memory.buffer.byteLength) / 65536);
  const memory = new Uint8Array(exports.memory.buffer);
  const view = new DataView(exports.memory.buffer);
  const answer = Math.ceil(exports.__heap_base.value / 16) * 16;
  const half = 2 ** 31;
  const length = panel.length;
  // Places of the input and of the output: across the middle, where a signed number would turn negative, at the end, and on both sides.
  const places = [half - 1, half - 16, half - length, half, end - length].flatMap((one) => [half - 2000, half + 2000 - (length >> 1), end - 2 * length - 64, answer + 64].map((two) => [one, two]));
  for (const [one, two] of [...places, ...places.map(([one, two]) => [two, one])]) {
    if (Math.abs(one - two) < length) continue;
    for (const [name, wanted] of ['sections', 'devices', 'disks', 'canonical'].map((call) => [call, cimbrolau.raw[call](panel, 2 ** 12).written])) {
      const room = Math.min(length, end - two);
      memory.set(panel, one);
      memory.fill(0xc5, two, two + room);
      exports[`cimbrolau_${name}`](answer, one, BigInt(length), two, BigInt(room));
      assert.deepEqual([view.getUint32(answer, true), view.getBigUint64(answer + 8, true)], [0, BigInt(wanted.length)], `${name} from ${one} to ${two}`);
      assert.equal(Buffer.compare(memory.subarray(two, two + wanted.length), wanted), 0);
      assert.ok(memory.subarray(two + wanted.length, two + room).every((byte) => byte === 0xc5));
      assert.equal(Buffer.compare(memory.subarray(one, one + length), panel), 0);
    }
  }
});
