// The types of cimbrolau.mjs.

export type Bytes = Uint8Array;
/** Text, or its bytes. */
export type Text = string | Uint8Array;

/** A refusal. Number, name and words are those of docs/REFUSALS.md. */
export class Refusal extends Error {
  constructor(number: number, place: number);
  readonly number: number;
  readonly name: string;
  /** The byte of the input at which it stands; of ROOM the length needed. */
  readonly place: number;
  readonly words: string;
  /** Of many devices at once: the number of the one that is refused, from 0; 0 too beside a fault of the file. */
  readonly index?: number;
}

/** What is lent is beyond the 32 bits of addresses, or there is no memory for it. Nothing was called. */
export class TooLarge extends RangeError {}

export const REFUSALS: ReadonlyArray<readonly [number: number, name: string, words: string]>;
export const MOST_LENT: number;
export const MOST_MEMORY: number;
export const MOST_FILE: number;
/** Bytes in the record of a loss. */
export const LOSS: number;
export const CPU_FIELDS: readonly string[];
export const MMU_FIELDS: readonly string[];
export const MESSAGES: ReadonlyArray<readonly [tag: number, kind: string, fields: ReadonlyArray<readonly [name: string, bits: number]>, data?: 'data' | 'text']>;

export interface Call {
  readonly name: string;
  readonly answer: ReadonlyArray<{ readonly name: string; readonly type: 'u32' | 'i32' | 'u64' | 'size'; readonly at: number }>;
  readonly parameters: ReadonlyArray<{ readonly name: string; readonly kind: 'in' | 'out' | 'both' | 'card' | 'u16' | 'u32' | 'u64' }>;
}
/** The calls of include/cimbrolau.h as data. */
export const calls: readonly Call[];

export interface DeviceKey {
  id: number;
  version: number;
  flags: number;
}
/** A device that is to be added. */
export interface NewDevice extends DeviceKey {
  payload: Bytes;
}
export interface Section extends DeviceKey {
  offset: number;
  length: number;
  position: number;
}
export type Device = Section;
export interface Disk {
  id: number;
  base: string;
  overlay: string;
  baseOffset: number;
  baseLength: number;
  overlayOffset: number;
  overlayLength: number;
  position: number;
}
export interface Mmu {
  apic: number;
  stateOffset: number;
  stateLength: number;
  position: number;
}
export interface Cpu extends Mmu {
  blobOffset: number;
  blobLength: number;
}
/** What is shown of a canonical file, kept up to date by the edits. */
export interface Card {
  length: number;
  sections: number;
  devices: number;
  /** The bytes of the devices' payloads together. */
  payloads: number;
}
/** A card as it is passed: any numbers of 64 bits. */
export type AnyCard = { [number in keyof Card]: number | bigint };
/** What an edit gives: the canonical form of the result, and its card. */
export interface Edited {
  file: Bytes;
  card: Card;
}
/** What META says of a snapshot; the time is in milliseconds. */
export interface Meta {
  id: bigint;
  time: bigint;
  parent?: bigint;
  label?: string;
}
/** A part of a damaged file that is lost. Number, name and words are those of a refusal. */
export interface Loss {
  start: number;
  bytes: number;
  number: number;
  name: string;
  words: string;
}
export interface Controller {
  address: number;
  tag: Bytes;
  offset: number;
  length: number;
  position: number;
}
/** Something that a file needs to be restored. */
export interface Missing {
  what: 'device' | 'disk';
  id: number;
}
export interface Cursors {
  head: number;
  reserve: number;
  commit: number;
}
export interface Pair {
  start: number;
  end: number;
}
export interface Access {
  type: number;
  level: number;
  present: number;
  long_mode: number;
  size: number;
  granularity: number;
  unusable: number;
  rest: number;
}
/** A message: its kind, the fields of that kind (those of 64 bits are BigInts), and data or text. */
export type Message = { tag: number; kind: string; data?: Bytes; text?: string } & { [field: string]: number | bigint | string | Bytes | undefined };
export type MessageToWrite = ({ kind: string } | { tag: number }) & { data?: Bytes; text?: string } & { [field: string]: number | bigint | string | Bytes | undefined };

export interface Answer {
  number: number;
  place: number;
  /** What was written, where an output was lent by its length. */
  written?: Bytes;
}
/** The numbers of the card stand beside number and place; beside a refusal they are those of the card that was given. */
export type AnswerWithCard = Answer & { index: number; length: bigint; sections: bigint; devices: bigint; payloads: bigint };
export type Lent = Bytes | number;
/** The calls as C has them. A refusal is an answer. */
export interface Raw {
  check(file: Bytes): Answer;
  sections(file: Bytes, table: Lent): Answer;
  devices(file: Bytes, table: Lent): Answer;
  disks(file: Bytes, table: Lent): Answer;
  cpus(file: Bytes, table: Lent): Answer;
  mmus(file: Bytes, table: Lent): Answer;
  meta(file: Bytes): Answer & { present: number; id: bigint; has_parent: number; has_label: number; parent: bigint; time: bigint; label_place: number; label_length: number };
  canonical(file: Bytes, out: Lent): Answer;
  open(file: Bytes): AnswerWithCard;
  add_device(file: Bytes, card: AnyCard, id: number, version: number, flags: number, payload: Bytes, out: Lent): AnswerWithCard;
  add_disk(file: Bytes, card: AnyCard, id: number, base: Bytes, overlay: Bytes, out: Lent): AnswerWithCard;
  add_devices(file: Bytes, card: AnyCard, table: Bytes, store: Bytes, out: Lent): AnswerWithCard;
  remove_device(file: Bytes, card: AnyCard, id: number, version: number, flags: number, out: Lent): AnswerWithCard;
  remove_disk(file: Bytes, card: AnyCard, id: number, out: Lent): AnswerWithCard;
  replace_device(file: Bytes, card: AnyCard, id: number, version: number, flags: number, payload: Bytes, out: Lent): AnswerWithCard;
  salvage(file: Bytes, out: Lent, losses: Lent): Answer & { losses: number; records?: Bytes };
  wrapper_check(wrapper: Bytes): Answer;
  controllers(wrapper: Bytes, table: Lent): Answer;
  wrapper_canonical(wrapper: Bytes, out: Lent): Answer;
  ready(file: Bytes, list: Lent): Answer & { yes: number };
  message_read(message: Bytes): Answer & { tag: number; a: bigint; b: bigint; c: bigint; d: bigint; data_place: number; data_length: number };
  message_write(tag: number, a: number | bigint, b: number | bigint, c: number | bigint, d: number | bigint, data: Bytes, out: Lent): Answer;
  region_check(region: Bytes): Answer;
  ring_report(region: Bytes, queue: number): Answer & Cursors;
  ring_reserve(region: Bytes, queue: number, payload_length: number | bigint): Answer & Pair;
  ring_fill(region: Bytes, queue: number, start: number, end: number, payload: Bytes): Answer;
  ring_commit(region: Bytes, queue: number, start: number, end: number): Answer;
  ring_take(region: Bytes, queue: number): Answer & { payload_place: number; payload_length: number };
  cpu_field(state: Bytes, field: number, index: number, out: Lent): Answer;
  mmu_field(state: Bytes, field: number, index: number, out: Lent): Answer;
  cpu_set(state: Bytes, field: number, index: number, value: Bytes): Answer;
  mmu_set(state: Bytes, field: number, index: number, value: Bytes): Answer;
  access(word: number): Access;
}

/** Every call below throws a Refusal where the library refuses, and a TooLarge beyond the bounds of 32 bits. */
export class Cimbrolau {
  constructor(module: WebAssembly.Module, options?: { watch?: { before(memory: Bytes, parts: unknown[]): void; after(memory: Bytes, parts: unknown[]): void } });
  readonly raw: Raw;
  /** How many bytes of memory are held between calls. */
  readonly held: number;

  check(file: Bytes): void;
  sections(file: Bytes): Section[];
  devices(file: Bytes): Device[];
  disks(file: Bytes): Disk[];
  cpus(file: Bytes): Cpu[];
  mmus(file: Bytes): Mmu[];
  meta(file: Bytes): Meta | undefined;
  canonical(file: Bytes): Bytes;
  /** The card of the canonical form. */
  open(file: Bytes): Card;
  addDevice(file: Bytes, card: AnyCard, key: DeviceKey, payload: Bytes): Edited;
  /** Many devices more, or none: the refusal of one has its number as `index`. */
  addDevices(file: Bytes, card: AnyCard, devices: readonly NewDevice[]): Edited;
  addDisk(file: Bytes, card: AnyCard, id: number, base: Text, overlay: Text): Edited;
  removeDevice(file: Bytes, card: AnyCard, key: DeviceKey): Edited;
  removeDisk(file: Bytes, card: AnyCard, id: number): Edited;
  replaceDevice(file: Bytes, card: AnyCard, key: DeviceKey, payload: Bytes): Edited;
  /** What can be kept of a damaged file, in canonical form, and what is lost. */
  salvage(file: Bytes): { file: Bytes; losses: Loss[] };

  wrapperCheck(wrapper: Bytes): void;
  controllers(wrapper: Bytes): Controller[];
  wrapperCanonical(wrapper: Bytes): Bytes;

  /** What a file lacks to be restored; nothing if it is ready. */
  ready(file: Bytes): Missing[];

  messageRead(message: Bytes): Message;
  messageWrite(message: MessageToWrite): Bytes;

  regionCheck(region: Bytes): void;
  ringReport(region: Bytes, queue: number): Cursors;
  ringReserve(region: Bytes, queue: number, length: number | bigint): Pair;
  ringFill(region: Bytes, queue: number, pair: Pair, payload: Bytes): void;
  ringCommit(region: Bytes, queue: number, pair: Pair): void;
  ringTake(region: Bytes, queue: number): Bytes;

  cpuField(state: Bytes, field: string | number, index?: number): Bytes;
  mmuField(state: Bytes, field: string | number, index?: number): Bytes;
  cpuSet(state: Bytes, field: string | number, index: number, value: Bytes): void;
  mmuSet(state: Bytes, field: string | number, index: number, value: Bytes): void;
  access(word: number): Access;
}

/** The library over the bytes of cimbrolau.wasm, or over a module that is compiled already. */
export function load(source: BufferSource | WebAssembly.Module): Promise<Cimbrolau>;
