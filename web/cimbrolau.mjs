// Cimbrolau in WebAssembly: every call of include/cimbrolau.h, for a page, a worker and Node. One module with no dependency; docs/BROWSER.md has the rest.
//
//   const cimbrolau = await load(bytesOfTheWasmFile);
//   cimbrolau.check(file);                       // a Uint8Array; throws a Refusal
//   const form = cimbrolau.canonical(file);      // a Uint8Array of its own
//
// The calls of the library keep no state. A call copies what it is lent into the module's memory, and what was written out of it; nothing else is kept.

/** The refusals: number, name, and what it says in a few words. */
export const REFUSALS = [
  [1, 'SHORT', 'under 16 bytes'],
  [2, 'MAGIC', 'letters wrong'],
  [3, 'VERSION', 'format version not taken'],
  [4, 'ENDIAN', 'endianness tag not 1'],
  [5, 'RESERVED', 'reserved number or flags not 0'],
  [6, 'SIZE', 'too long'],
  [7, 'CUT', 'section passes the end'],
  [8, 'MANY', '65th section'],
  [9, 'TWICE', 'section again, or one state beside a list of them'],
  [10, 'SECVER', 'section version not taken'],
  [11, 'SHAPE', "field doesn't fit, or bytes left over"],
  [12, 'LIMIT', 'count or length over its bound'],
  [13, 'KEY', 'key again'],
  [14, 'TEXT', 'not UTF-8'],
  [15, 'VALUE', 'byte or number outside its values'],
  [16, 'ROOM', 'output shorter than needed'],
  [17, 'HAVE', 'added key is there'],
  [18, 'TAG', 'unknown tag'],
  [20, 'REGION', 'broken region'],
  [21, 'BIG', 'record above half the capacity'],
  [22, 'FULL', 'bytes in use and those needed exceed the capacity'],
  [23, 'EMPTY', 'nothing is committed'],
  [24, 'RECORD', 'committed record or skip runs too far'],
  [25, 'ABSENT', "entry to be changed isn't there"],
  [26, 'PAYLOAD', 'payload outside the bytes that hold them'],
  [28, 'CARD', 'number of an untrue card would leave its bounds'],
  [29, 'TURN', 'cursors given out of turn'],
];

/** The row of a number. */
function rowOf(number) {
  const row = REFUSALS.find(([known]) => known === number);
  if (!row) throw new Error(`cimbrolau.wasm answered ${number}, which this module does not know: they are of different versions`);
  return row;
}

/** A refusal: its number, its name, the byte of the input at which it stands (of ROOM the length needed), and what it says. */
export class Refusal extends Error {
  constructor(number, place) {
    const [, name, words] = rowOf(number);
    super(`${number} ${name} at ${place}: ${words}`);
    this.name = name;
    this.number = number;
    this.place = place;
    this.words = words;
  }

  toString() {
    return this.message;
  }
}

/** The most bytes of one thing that is lent: pointers have 32 bits, and the compiler takes distances for signed. */
export const MOST_LENT = 2 ** 31 - 1;
/** The most bytes of memory, of which 256 KiB are the library's: 4 GiB without the last page, so that no end is address 0. */
export const MOST_MEMORY = 2 ** 32 - 2 ** 16;
/** A snapshot that is taken has at most so many bytes. */
export const MOST_FILE = 2 ** 30;

/** What is lent is beyond the 32 bits of addresses here, or the machine has no memory for it. Nothing was called. */
export class TooLarge extends RangeError {
  constructor(words) {
    super(words);
    this.name = 'TooLarge';
  }
}

/*
 * The calls: what each answers, its name, and its parameters in order. A parameter with a type is a number, or a card; `file` and the like are bytes that are
 * read, `>out` bytes that are lent to be written, `=region` bytes that are changed in place.
 */
const CALLS = `
  answer   check              file
  answer   sections           file >table
  answer   devices            file >table
  answer   disks              file >table
  answer   cpus               file >table
  answer   mmus               file >table
  meta     meta               file
  answer   canonical          file >out
  edited   open               file
  edited   add_device         file card:card id:u32 version:u16 flags:u16 payload >out
  edited   add_disk           file card:card id:u32 base overlay >out
  edited   add_devices        file card:card table store >out
  edited   remove_device      file card:card id:u32 version:u16 flags:u16 >out
  edited   remove_disk        file card:card id:u32 >out
  edited   replace_device     file card:card id:u32 version:u16 flags:u16 payload >out
  salvaged salvage            file >out >losses
  answer   wrapper_check      wrapper
  answer   controllers        wrapper >table
  answer   wrapper_canonical  wrapper >out
  ready    ready              file >list
  message  message_read       message
  answer   message_write      tag:u32 a:u64 b:u64 c:u64 d:u64 data >out
  answer   region_check       region
  cursors  ring_report        region queue:u32
  pair     ring_reserve       =region queue:u32 payload_length:u64
  answer   ring_fill          =region queue:u32 start:u32 end:u32 payload
  answer   ring_commit        =region queue:u32 start:u32 end:u32
  record   ring_take          =region queue:u32
  answer   cpu_field          state field:u32 index:u32 >out
  answer   mmu_field          state field:u32 index:u32 >out
  answer   cpu_set            =state field:u32 index:u32 value
  answer   mmu_set            =state field:u32 index:u32 value
  access   access             word:u32
`;

/*
 * What calls answer: the fields of the struct that C has, each with its type. A `size` is a u64 that never passes 2^53, since it is a place, a length or a number of
 * bytes; it is a Number here. A `u64` is a BigInt.
 */
const ANSWERS = {
  answer: 'number:u32 place:size',
  edited: 'number:u32 index:u32 place:size length:u64 sections:u64 devices:u64 payloads:u64',
  ready: 'number:u32 yes:u32 place:size',
  salvaged: 'number:u32 place:size losses:size',
  meta: 'number:u32 present:u32 place:size id:u64 has_parent:u32 has_label:u32 parent:u64 time:u64 label_place:size label_length:size',
  message: 'number:u32 place:size tag:u32 a:u64 b:u64 c:u64 d:u64 data_place:size data_length:size',
  cursors: 'number:u32 place:size head:i32 reserve:i32 commit:i32',
  pair: 'number:u32 place:size start:u32 end:u32',
  record: 'number:u32 place:size payload_place:size payload_length:size',
  access: 'type:u32 level:u32 present:u32 long_mode:u32 size:u32 granularity:u32 unusable:u32 rest:u32',
};

const WIDTH = { u32: 4, i32: 4, u64: 8, size: 8 };
const READ = {
  u32: (view, at) => view.getUint32(at, true),
  i32: (view, at) => view.getInt32(at, true),
  u64: (view, at) => view.getBigUint64(at, true),
  size: (view, at) => Number(view.getBigUint64(at, true)),
};

const words = (line) => line.trim().split(/\s+/);
const typed = (word) => word.split(':');

/** The fields of each answer with their places, as C lays a struct out. */
const FIELDS = Object.fromEntries(
  Object.entries(ANSWERS).map(([answer, line]) => {
    let end = 0;
    const fields = words(line).map((word) => {
      const [name, type] = typed(word);
      const at = Math.ceil(end / WIDTH[type]) * WIDTH[type];
      end = at + WIDTH[type];
      return { name, type, at };
    });
    return [answer, fields];
  }),
);

/** The calls as data: name, answer (its fields in order), and parameters, each with its name and what it is: `in`, `out`, `both`, `card`, `u16`, `u32` or `u64`. */
export const calls = CALLS.trim()
  .split('\n')
  .map((line) => {
    const [answer, name, ...parameters] = words(line);
    return {
      name,
      answer: FIELDS[answer].map((field) => ({ name: field.name, type: field.type, at: field.at })),
      parameters: parameters.map((word) => {
        const [plain, type] = typed(word);
        if (type) return { name: plain, kind: type };
        if (plain[0] === '>') return { name: plain.slice(1), kind: 'out' };
        if (plain[0] === '=') return { name: plain.slice(1), kind: 'both' };
        return { name: plain, kind: 'in' };
      }),
    };
  });

const BITS = { u16: 16, u32: 32, u64: 64 };
const isBytes = (value) => value instanceof Uint8Array;
const lends = (parameter) => !(parameter.kind in BITS);
const whole = (number) => number.toLocaleString('en');

/** A number of so many bits as WebAssembly takes it. */
function passed({ name, kind }, value) {
  const bits = BITS[kind];
  const fits = typeof value === 'bigint' ? value >= 0n && value < 1n << BigInt(bits) : Number.isSafeInteger(value) && value >= 0 && value < 2 ** bits;
  if (!fits) throw new TypeError(`${name}: ${value} is no whole number of ${bits} bits`);
  return bits === 64 ? BigInt(value) : Number(value);
}

/** The numbers of a card, in the order of C. */
const CARD = words('length sections devices payloads');

/** A card as C lays it out. Its numbers have 64 bits: Numbers, or BigInts. */
function cardBytes(card) {
  const bytes = new Uint8Array(32);
  const view = new DataView(bytes.buffer);
  CARD.forEach((name, at) => view.setBigUint64(8 * at, passed({ name, kind: 'u64' }, card?.[name]), true));
  return bytes;
}

const ALIGNED = 16;
/** Bytes between the things that are lent. They belong to nobody. */
const BETWEEN = 16;
/** The most memory that is kept from one call to the next. What has grown beyond it is let go: memory in WebAssembly never shrinks. */
const KEPT = 2 ** 22;
const PAGE = 2 ** 16;

/** The library. `load` makes one. */
export class Cimbrolau {
  #module;
  #instance = null;
  #watch;

  /**
   * Over a compiled cimbrolau.wasm. `watch`, for tests, has two functions, `before` and `after`: they see the memory and the parts of it that are lent, just before and
   * just after each call.
   */
  constructor(module, { watch } = {}) {
    this.#module = module;
    this.#watch = watch;
    /** The calls as C has them: numbers and lent bytes in the order of the header; what is answered is never thrown. */
    this.raw = Object.fromEntries(calls.map((call) => [call.name, (...given) => this.#call(call, given)]));
    for (const { name } of calls) {
      if (!(`cimbrolau_${name}` in this.#ready(0).exports)) throw new Error(`this cimbrolau.wasm has no call ${name}: it is of another version`);
    }
  }

  /** How many bytes of memory are held now, between calls. */
  get held() {
    return this.#instance ? this.#instance.exports.memory.buffer.byteLength : 0;
  }

  /** An instance whose memory has at least so many bytes. */
  #ready(bytes) {
    this.#instance ??= new WebAssembly.Instance(this.#module, {});
    const { memory } = this.#instance.exports;
    const missing = bytes - memory.buffer.byteLength;
    if (missing > 0) {
      try {
        memory.grow(Math.ceil(missing / PAGE));
      } catch {
        throw new TooLarge(`there is no memory for ${whole(bytes)} bytes, which this call needs at once`);
      }
    }
    return this.#instance;
  }

  /** Where each lent thing goes, one behind the other; and the end. */
  #laid(call, given) {
    let end = Math.ceil(this.#ready(0).exports.__heap_base.value / ALIGNED) * ALIGNED;
    const place = (length) => {
      const start = end + BETWEEN;
      end = Math.ceil((start + length + BETWEEN) / ALIGNED) * ALIGNED;
      return start;
    };
    const last = call.answer[call.answer.length - 1];
    const answer = place(last.at + WIDTH[last.type]);
    const parts = call.parameters.map((parameter, at) => {
      if (!lends(parameter)) return null;
      const { kind } = parameter;
      // A card is passed by where a copy of it stands.
      if (kind === 'card') return { kind: 'in', bytes: cardBytes(given[at]), length: 32, start: place(32), alone: true };
      const bytes = given[at];
      // An output may be lent by its length alone.
      const length = kind === 'out' && typeof bytes === 'number' ? bytes : isBytes(bytes) ? bytes.length : NaN;
      if (Number.isNaN(length)) throw new TypeError(`${parameter.name}: a Uint8Array is wanted`);
      if (length > MOST_LENT) throw new TooLarge(`${parameter.name}: ${whole(length)} bytes; with addresses of 32 bits at most ${whole(MOST_LENT)} can be lent at once`);
      return { kind, name: parameter.name, bytes, length, start: place(length) };
    });
    if (end > MOST_MEMORY) throw new TooLarge(`this call needs ${whole(end)} bytes of memory at once; addresses of 32 bits have at most ${whole(MOST_MEMORY)}`);
    return { answer, parts, end };
  }

  /** One call. What it answers as an object; `written` is what stands at the start of an output that was lent by its length, `records` that of losses. */
  #call(call, given) {
    if (given.length !== call.parameters.length) {
      throw new TypeError(`${call.name} takes ${call.parameters.length} arguments: ${call.parameters.map(({ name }) => name).join(', ')}`);
    }
    const numbers = call.parameters.map((parameter, at) => (lends(parameter) ? null : passed(parameter, given[at])));
    const { answer, parts, end } = this.#laid(call, given);
    const { exports } = this.#ready(end);
    let ended = false;
    try {
      const memory = new Uint8Array(exports.memory.buffer);
      for (const part of parts) if (part && isBytes(part.bytes)) memory.set(part.bytes, part.start);
      this.#watch?.before(memory, parts);
      const passing = parts.flatMap((part, at) => (!part ? [numbers[at]] : part.alone ? [part.start] : [part.start, BigInt(part.length)]));
      exports[`cimbrolau_${call.name}`](answer, ...passing);
      ended = true;
      this.#watch?.after(memory, parts);
      return taken(call, memory, answer, parts);
    } finally {
      // What was stopped on its way, as by a page that ran out of stack, is not used again.
      if (!ended || this.held > KEPT) this.#instance = null;
    }
  }

  /** A call that throws what it refuses. */
  #do(name, ...given) {
    return accepted(this.raw[name](...given));
  }

  // ---- snapshot files

  /** Whether a file follows the rules: returns, or throws the refusal. */
  check(file) {
    this.#do('check', file);
  }

  /** The sections in file order. */
  sections(file) {
    return records(this.#do('sections', file, 64 * 32).written, sectionOf);
  }

  /** The devices in key order. */
  devices(file) {
    return records(this.#do('devices', file, table(file, 16, 4096)).written, sectionOf);
  }

  /** The disks in key order, with their texts. */
  disks(file) {
    const text = (offset, length) => new TextDecoder('utf-8', { ignoreBOM: true }).decode(file.slice(offset, offset + length));
    return records(this.#do('disks', file, table(file, 12, 256)).written, (view, at) => {
      const baseLength = view.getUint32(at + 4, true);
      const baseOffset = READ.size(view, at + 8);
      const overlayLength = view.getUint32(at + 16, true);
      const overlayOffset = baseOffset + baseLength + 4;
      return {
        id: view.getUint32(at, true),
        base: text(baseOffset, baseLength),
        overlay: text(overlayOffset, overlayLength),
        baseOffset,
        baseLength,
        overlayOffset,
        overlayLength,
        position: view.getUint32(at + 24, true),
      };
    });
  }

  /** The CPUs of a section CPUS in key order, with where their states and internal blobs stand. */
  cpus(file) {
    return records(this.#do('cpus', file, table(file, 1199, 256)).written, (view, at) => {
      const state = stateOf(view, at);
      const blobLength = READ.size(view, at + 16);
      return { ...state, blobOffset: state.stateOffset + state.stateLength + 8, blobLength };
    });
  }

  /** The MMUs of a section MMUS in key order. */
  mmus(file) {
    return records(this.#do('mmus', file, table(file, 16, 256)).written, stateOf);
  }

  /** What META says, or nothing where there is no such section: ids and the time (in milliseconds) are BigInts, parent and label may be missing. */
  meta(file) {
    const said = this.#do('meta', file);
    if (said.present === 0) return undefined;
    const label = new TextDecoder('utf-8', { ignoreBOM: true }).decode(file.slice(said.label_place, said.label_place + said.label_length));
    return {
      id: said.id,
      time: said.time,
      ...(said.has_parent === 1 && { parent: said.parent }),
      ...(said.has_label === 1 && { label }),
    };
  }

  /** The canonical form. */
  canonical(file) {
    return this.#do('canonical', file, atMost(file.length)).written;
  }

  /** The card of the canonical form: its length, its sections, its devices, and the bytes of their payloads together. */
  open(file) {
    return cardOf(this.#do('open', file));
  }

  /*
   * The edits take the card of the file, which `open` and every edit give, and answer `file`, the canonical form of the result, and `card`, its card. The bytes do
   * not depend on the card; beside one that is not the file's an edit is CARD where a number of it would leave its bounds.
   */

  /** One device more. A device's key is its id, version and flags. */
  addDevice(file, card, { id, version, flags }, payload) {
    return this.#edit('add_device', file, card, id, version, flags, payload, atMost(file.length + 36 + payload.length));
  }

  /**
   * Many devices more, each with its key and its payload, or none of them: what is answered is what `addDevice` would for one after the other. The refusal of one of
   * them has its number in the list as `index`, from 0, which is 0 too beside a fault of the file.
   */
  addDevices(file, card, devices) {
    const { table, store } = newDevices(devices);
    const edited = this.raw.add_devices(file, card, table, store, atMost(file.length + 20 + 16 * devices.length + store.length));
    if (edited.number !== 0) throw Object.assign(new Refusal(edited.number, edited.place), { index: edited.index });
    return { file: edited.written, card: cardOf(edited) };
  }

  /** One disk more. Base and overlay are texts, or bytes. */
  addDisk(file, card, id, base, overlay) {
    const [one, two] = [base, overlay].map(bytesOf);
    return this.#edit('add_disk', file, card, id, one, two, atMost(file.length + 32 + one.length + two.length));
  }

  /** One of its devices fewer. */
  removeDevice(file, card, { id, version, flags }) {
    return this.#edit('remove_device', file, card, id, version, flags, atMost(file.length));
  }

  /** One of its disks fewer. */
  removeDisk(file, card, id) {
    return this.#edit('remove_disk', file, card, id, atMost(file.length));
  }

  /** Another payload in one of its devices. */
  replaceDevice(file, card, { id, version, flags }, payload) {
    return this.#edit('replace_device', file, card, id, version, flags, payload, atMost(file.length + payload.length));
  }

  #edit(name, ...given) {
    const edited = this.#do(name, ...given);
    return { file: edited.written, card: cardOf(edited) };
  }

  /**
   * What can be kept of a damaged file, and what is lost. `file` is the canonical form of the sections that are kept, and is always accepted; `losses` has for each
   * loss where it starts, how many bytes it has, and why: number, name and words of a refusal. Only a file that is too long or whose header is wrong is refused.
   */
  salvage(file) {
    const out = atMost(file.length);
    const first = this.raw.salvage(file, out, LOSS * FEW);
    // What is kept has room, so that ROOM says how long the records are.
    const { written, records: lost } = first.number === ROOM ? this.#do('salvage', file, out, first.place) : accepted(first);
    const view = new DataView(lost.buffer);
    const losses = Array.from({ length: lost.length / LOSS }, (_, at) => {
      const number = view.getUint32(LOSS * at + 16, true);
      const [, name, words] = rowOf(number);
      return { start: READ.size(view, LOSS * at), bytes: READ.size(view, LOSS * at + 8), number, name, words };
    });
    return { file: written, losses };
  }

  // ---- disk-controller wrappers

  /** Whether a wrapper follows the rules: returns, or throws the refusal. */
  wrapperCheck(wrapper) {
    this.#do('wrapper_check', wrapper);
  }

  /** The controllers in address order; a tag is four bytes. */
  controllers(wrapper) {
    return records(this.#do('controllers', wrapper, table(wrapper, 12, 256)).written, (view, at) => ({
      address: view.getUint16(at, true),
      tag: new Uint8Array(view.buffer.slice(at + 4, at + 8)),
      offset: READ.size(view, at + 8),
      length: READ.size(view, at + 16),
      position: view.getUint32(at + 24, true),
    }));
  }

  /** The canonical form of a wrapper. */
  wrapperCanonical(wrapper) {
    return this.#do('wrapper_canonical', wrapper, Math.min(wrapper.length, 2 ** 26)).written;
  }

  // ---- readiness

  /** What a file lacks to be restored, devices before disks; nothing if it is ready. Device 21 stands for an interrupt controller, 2 or 21. */
  ready(file) {
    const { written } = this.#do('ready', file, 72);
    const view = new DataView(written.buffer);
    return Array.from({ length: written.length / 8 }, (_, at) => ({
      what: view.getUint32(8 * at, true) === 1 ? 'device' : 'disk',
      id: view.getUint32(8 * at + 4, true),
    }));
  }

  // ---- messages

  /** A message read: its kind by name, and its fields. Those of 64 bits are BigInts. */
  messageRead(message) {
    const read = this.#do('message_read', message);
    const [tag, kind, fields, data] = MESSAGES.find(([known]) => known === read.tag);
    const result = { tag, kind };
    fields.forEach(([name, bits], at) => {
      if (name) result[name] = bits === 64 ? read['abcd'[at]] : Number(read['abcd'[at]]);
    });
    const bytes = message.slice(read.data_place, read.data_place + read.data_length);
    if (data === 'data') result.data = bytes;
    if (data === 'text') result.text = new TextDecoder('utf-8', { ignoreBOM: true }).decode(bytes);
    return result;
  }

  /** A message written, from what `messageRead` gives; a field that is left out is 0, data that are left out empty. */
  messageWrite(message) {
    const row = MESSAGES.find(([tag, kind]) => kind === message.kind || (message.kind === undefined && tag === message.tag));
    if (!row) throw new TypeError(`${message.kind ?? message.tag} is no kind of message`);
    const [tag, , fields] = row;
    const numbers = [0, 1, 2, 3].map((at) => (fields[at]?.[0] ? (message[fields[at][0]] ?? 0) : 0));
    const data = bytesOf(message.data ?? message.text ?? '');
    return this.#do('message_write', tag, ...numbers, data, 64 + data.length).written;
  }

  // ---- rings: a region is a Uint8Array, also one over shared memory. Who shares a region takes turns: see docs/BROWSER.md.

  /** Whether a region follows the rules: returns, or throws the refusal. */
  regionCheck(region) {
    this.#do('region_check', region);
  }

  /** A queue's cursors. */
  ringReport(region, queue) {
    const { head, reserve, commit } = this.#do('ring_report', region, queue);
    return { head, reserve, commit };
  }

  /** Room for a payload of so many bytes: a pair that `ringFill` and `ringCommit` are given. */
  ringReserve(region, queue, length) {
    const { start, end } = this.#do('ring_reserve', region, queue, length);
    return { start, end };
  }

  /** The payload into its pair. */
  ringFill(region, queue, { start, end }, payload) {
    this.#do('ring_fill', region, queue, start, end, payload);
  }

  /** The records of a pair become the taker's. */
  ringCommit(region, queue, { start, end }) {
    this.#do('ring_commit', region, queue, start, end);
  }

  /** The next payload, as bytes of its own. */
  ringTake(region, queue) {
    const { payload_place: from, payload_length: length } = this.#do('ring_take', region, queue);
    return region.slice(from, from + length);
  }

  // ---- register sheets

  /** A field of a CPU state, by its name in CPU_FIELDS or its number there. */
  cpuField(state, field, index = 0) {
    return this.#do('cpu_field', state, numbered(CPU_FIELDS, field), index, 512).written;
  }

  /** A field of an MMU state, by its name in MMU_FIELDS or its number there. */
  mmuField(state, field, index = 0) {
    return this.#do('mmu_field', state, numbered(MMU_FIELDS, field), index, 512).written;
  }

  /** A field of a CPU state set, in place. */
  cpuSet(state, field, index, value) {
    this.#do('cpu_set', state, numbered(CPU_FIELDS, field), index, value);
  }

  /** A field of an MMU state set, in place. */
  mmuSet(state, field, index, value) {
    this.#do('mmu_set', state, numbered(MMU_FIELDS, field), index, value);
  }

  /** The access word of a segment in its parts. */
  access(word) {
    return this.raw.access(word);
  }
}

/** The library over the bytes of cimbrolau.wasm, or over a module that is compiled already. */
export async function load(source) {
  return new Cimbrolau(source instanceof WebAssembly.Module ? source : await WebAssembly.compile(source));
}

/** An answer that is no refusal. */
function accepted(answered) {
  if (answered.number !== 0) throw new Refusal(answered.number, answered.place);
  return answered;
}

const ROOM = 16;
/** Bytes in the record of a loss, and how many losses salvage has room for at first. */
export const LOSS = 24;
const FEW = 64;

/** What a call answered, with what it wrote copied to where it was lent. Salvage writes to two outputs, of which the second has the records of losses. */
function taken(call, memory, answer, parts) {
  const view = new DataView(memory.buffer);
  const answered = {};
  for (const { name, type, at } of call.answer) answered[name] = READ[type](view, answer + at);
  for (const part of parts) {
    if (!part || part.kind === 'in') continue;
    const { kind, name, bytes, length, start } = part;
    if (!isBytes(bytes) && name === 'losses') answered.records = memory.slice(start, start + LOSS * answered.losses);
    else if (!isBytes(bytes)) answered.written = memory.slice(start, start + (answered.number === 0 ? answered.place : 0));
    else if (kind === 'out') bytes.set(memory.subarray(start, start + length));
    else store(bytes, memory.subarray(start, start + length));
  }
  return answered;
}

/** Stores what has changed, from the first byte that differs to the last: shared memory is not written where the call wrote nothing. */
function store(bytes, now) {
  let from = 0;
  let to = now.length;
  while (from < to && bytes[from] === now[from]) from += 1;
  while (to > from && bytes[to - 1] === now[to - 1]) to -= 1;
  if (from < to) bytes.set(now.subarray(from, to), from);
}

/** The card in an answer. That of a call which is taken is within its bounds, so that Numbers have room for it. */
const cardOf = (edited) => Object.fromEntries(CARD.map((name) => [name, Number(edited[name])]));

/** The table of new devices, 24 bytes each, and their payloads one behind the other. */
function newDevices(devices) {
  const table = new Uint8Array(24 * devices.length);
  const view = new DataView(table.buffer);
  const store = new Uint8Array(devices.reduce((bytes, { payload }) => bytes + payload.length, 0));
  let place = 0;
  devices.forEach(({ id, version, flags, payload }, number) => {
    const at = 24 * number;
    view.setUint32(at, passed({ name: 'id', kind: 'u32' }, id), true);
    view.setUint16(at + 4, passed({ name: 'version', kind: 'u16' }, version), true);
    view.setUint16(at + 6, passed({ name: 'flags', kind: 'u16' }, flags), true);
    view.setBigUint64(at + 8, BigInt(place), true);
    view.setBigUint64(at + 16, BigInt(payload.length), true);
    store.set(payload, place);
    place += payload.length;
  });
  return { table, store };
}

/** The output of a call on files is never longer than a file may be. */
const atMost = (bytes) => Math.min(bytes, MOST_FILE);
/** A table's bytes, at most: entries have at least so many bytes each in the file. */
const table = (input, least, most) => 32 * Math.min(most, Math.floor(input.length / least));
const bytesOf = (text) => (typeof text === 'string' ? new TextEncoder().encode(text) : text);

function records(bytes, read) {
  const view = new DataView(bytes.buffer);
  return Array.from({ length: bytes.length / 32 }, (_, at) => read(view, 32 * at));
}

function stateOf(view, at) {
  return {
    apic: view.getUint32(at, true),
    stateLength: view.getUint32(at + 4, true),
    stateOffset: READ.size(view, at + 8),
    position: view.getUint32(at + 24, true),
  };
}

function sectionOf(view, at) {
  return {
    id: view.getUint32(at, true),
    version: view.getUint16(at + 4, true),
    flags: view.getUint16(at + 6, true),
    offset: READ.size(view, at + 8),
    length: READ.size(view, at + 16),
    position: view.getUint32(at + 24, true),
  };
}

function numbered(names, field) {
  if (typeof field === 'number') return field;
  const at = names.indexOf(field);
  if (at < 0) throw new TypeError(`${field} is no field`);
  return at;
}

/** The fields of CPU states, in the order of their numbers. */
export const CPU_FIELDS = words('GPR RIP RFLAGS MODE HALTED SELECTOR BASE LIMIT ACCESS FCW FSW FTW TOP FOP FIP FDP FCS FDS ST MXCSR XMM FXSAVE A20 IRQ13 BIOS_INT_VALID BIOS_INT');
/** The fields of MMU states, in the order of their numbers. */
export const MMU_FIELDS = words('CR DR MSR GDTR_BASE GDTR_LIMIT IDTR_BASE IDTR_LIMIT SELECTOR BASE LIMIT ACCESS');

/** The kinds of messages: tag, name, the fields a, b, c, d with their bits, and whether there are data or a text. */
export const MESSAGES = [
  [0x0000, 'Nop', 'seq:32'],
  [0x0001, 'Shutdown', ''],
  [0x0100, 'MmioRead', 'id:32 addr:64 size:32'],
  [0x0101, 'MmioWrite', 'id:32 addr:64', 'data'],
  [0x0102, 'PortRead', 'id:32 port:16 size:32'],
  [0x0103, 'PortWrite', 'id:32 port:16 size:32 value:32'],
  [0x0104, 'DiskRead', 'id:32 disk:64 len:32 guest:64'],
  [0x0105, 'DiskWrite', 'id:32 disk:64 len:32 guest:64'],
  [0x1000, 'Ack', 'seq:32'],
  [0x1100, 'MmioReadResp', 'id:32', 'data'],
  [0x1101, 'PortReadResp', 'id:32 value:32'],
  [0x1102, 'MmioWriteResp', 'id:32'],
  [0x1103, 'PortWriteResp', 'id:32'],
  [0x1104, 'DiskReadResp', 'id:32 ok:8 bytes:32 error:32'],
  [0x1105, 'DiskWriteResp', 'id:32 ok:8 bytes:32 error:32'],
  [0x1200, 'FrameReady', 'frame:64'],
  [0x1300, 'IrqRaise', 'irq:8'],
  [0x1301, 'IrqLower', 'irq:8'],
  [0x1302, 'A20Set', 'enabled:8'],
  [0x1303, 'ResetRequest', ''],
  [0x1400, 'Log', 'level:8', 'text'],
  [0x1500, 'SerialOutput', 'port:16', 'data'],
  [0x1ffe, 'Panic', '', 'text'],
  [0x1fff, 'TripleFault', ''],
].map(([tag, kind, fields, data]) => [tag, kind, fields ? words(fields).map((word) => [typed(word)[0], Number(typed(word)[1])]) : [], data]);
