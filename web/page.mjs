// The page. tools/page puts it into index.html behind cimbrolau.mjs, with WASM (the library in base64), CARD (the rows of docs/REFUSALS.md) and NAMES
// (sections and devices as rust/cim/src/names.rs has them) before it.
import { MOST_LENT, Refusal, load } from './cimbrolau.mjs';
import { CARD, NAMES, WASM } from './embedded.mjs';

const cimbrolau = load(Uint8Array.from(atob(WASM), (letter) => letter.charCodeAt(0)));
const $ = (id) => document.getElementById(id);
const SVG = 'http://www.w3.org/2000/svg';

/** An element; children are elements or text, and text stays text. */
function make(tag, attributes = {}, ...children) {
  const drawn = ['svg', 'rect', 'line', 'title'].includes(tag);
  const element = drawn ? document.createElementNS(SVG, tag) : document.createElement(tag);
  for (const [name, value] of Object.entries(attributes)) {
    if (name.startsWith('on')) element.addEventListener(name.slice(2), value);
    else if (value !== false) element.setAttribute(name, value === true ? '' : value);
  }
  element.append(...children.flat(Infinity).filter((child) => child !== null && child !== undefined));
  return element;
}

// ---- words

const whole = (number) => number.toLocaleString('en').replaceAll(',', '\u202f');
const plural = (count, one, more = `${one}s`) => `${whole(count)} ${count === 1 ? one : more}`;

/** A number of bytes for people, as the command says it: with one digit behind the point, rounded down. */
function size(bytes) {
  const unit = [2, 1, 0].find((power) => bytes >= 1024 * 1024 ** power);
  if (unit === undefined) return plural(bytes, 'byte');
  const one = 1024 * 1024 ** unit;
  return `${Math.floor(bytes / one)}.${Math.floor(((bytes % one) * 10) / one)} ${['KiB', 'MiB', 'GiB'][unit]}`;
}

/** Text of others: what would hide or move something is shown by its number. */
const plain = (text) => text.replace(/[\p{Cc}\u200e\u200f\u2028\u2029\u202a-\u202e\u2066-\u2069]/gu, (letter) => `\\u{${letter.codePointAt(0).toString(16)}}`);

const sectionName = (id) => NAMES.sections[id] ?? `id ${id}`;
const deviceName = (id) => NAMES.devices[id] ?? `id ${id}`;
const colour = (id) => `k${id >= 1 && id <= 8 ? id : 9}`;
const keyWords = ({ id, version, flags }) => `${NAMES.devices[id] ? `${id} ${NAMES.devices[id]}` : id}, version ${version}, flags ${flags}`;
const missingWords = ({ what, id }) => {
  if (what === 'disk') return `disk ${id}`;
  if (id === 21) return 'device 2 or 21, an interrupt controller';
  if (id === 6) return 'device 6 DISK_CONTROLLER: exactly one, whose payload is a wrapper that follows the rules';
  return `device ${id} ${deviceName(id)}`;
};

// ---- drawing

/** The least share of a strip, in thousandths, that has a name in it. */
const NAMED = 75;

/** A strip of parts to scale: each has a start, a length, a class, a name and words. What would be thinner than a hairline is drawn as one. */
function strip(parts, length, label, left, right, place) {
  const scale = 1000 / Math.max(length, 1);
  const svg = make('svg', { viewBox: '0 0 1000 46', preserveAspectRatio: 'none', role: 'img', 'aria-label': label });
  for (const part of parts) {
    svg.append(
      make('rect', { x: part.start * scale, y: 0, width: Math.max(part.length * scale, 0.8), height: 46, class: `${part.kind} ${part.length * scale > 6 ? 'edge' : ''}` }, make('title', {}, part.words)),
    );
  }
  if (place !== undefined) {
    const x = Math.min(Math.max(place * scale, 1.5), 998.5);
    svg.append(make('line', { x1: x, x2: x, y1: 0, y2: 46, class: 'place' }, make('title', {}, `the place, byte ${whole(place)}`)));
  }
  const names = parts.filter((part) => part.length * scale > NAMED).map((part) => {
    const name = make('span', { 'aria-hidden': 'true' }, part.name ?? '');
    name.style.left = `${(part.start * scale) / 10}%`;
    name.style.width = `${(part.length * scale) / 10}%`;
    return name;
  });
  return make('figure', {}, make('div', { class: 'strip' }, svg, names), make('figcaption', {}, make('span', {}, left), make('span', {}, right)));
}

function table(label, heads, rows) {
  const cell = ([kind], child) => (kind === '!' ? make('th', { scope: 'row' }, child) : make('td', { class: kind === '#' ? 'number' : kind === '"' ? 'text' : '' }, child));
  return make(
    'div',
    { class: 'scroll', tabindex: '0', role: 'region', 'aria-label': label },
    make(
      'table',
      {},
      make('thead', {}, make('tr', {}, heads.map((head) => make('th', { scope: 'col', class: head[0] === '#' ? 'number' : '' }, head.slice(1))))),
      make('tbody', {}, rows.map((row) => make('tr', {}, row.map((child, at) => cell(heads[at], child))))),
    ),
  );
}

const swatch = (kind, name) => [make('span', { class: `swatch ${kind}`, 'aria-hidden': 'true' }), name];
const share = (part, all) => (all === 0 ? '0 %' : part / all >= 0.0005 ? `${((100 * part) / all).toFixed(1)} %` : 'under 0.1 %');

/** The sections behind each other, each with its header, behind that of the file; and where they end. */
function partsOf(sections) {
  const parts = [{ start: 0, length: 16, kind: 'k0', words: 'the header of the file, 16 bytes' }];
  let at = 16;
  for (const section of sections) {
    const words = `${sectionName(section.id)}, ${size(section.length)} from byte ${whole(section.offset)}`;
    parts.push({ start: at, length: 16 + section.length, kind: colour(section.id), name: sectionName(section.id), words });
    at += 16 + section.length;
  }
  return { parts, end: at };
}

function sectionStrip(sections, caption, label) {
  const { parts, end } = partsOf(sections);
  return strip(parts, end, label, caption, size(end));
}

function drawSections({ bytes, sections }) {
  const ram = sections.find(({ id }) => id === 6);
  const words = sections.map(({ id, length }) => `${sectionName(id)} ${size(length)}`).join(', ');
  return [
    make('h3', {}, `${plural(sections.length, 'section')}, to scale`),
    sectionStrip(sections, 'the whole file', `The sections in the order of the file: ${words || 'none'}`),
    ram && ram.length > bytes.length / 2 ? sectionStrip(sections.filter(({ id }) => id !== 6), 'the same without RAM', 'The sections but for RAM') : null,
    sections.length === 0
      ? null
      : table(
          'Sections in the order of the file',
          ['!Section', '#Version', '#Flags', '#From byte', '#Bytes', '#Share'],
          sections.map(({ id, version, flags, offset, length }) => [swatch(colour(id), sectionName(id)), version, flags, whole(offset), whole(length), share(length, bytes.length)]),
        ),
  ];
}

function drawDevices({ devices, sections }) {
  const section = sections.find(({ id }) => id === 4);
  if (!section) return [make('h3', {}, 'No devices')];
  const inFile = [...devices].sort((one, next) => one.position - next.position);
  const parts = inFile.map((device, at) => ({ start: device.offset - 16 - section.offset, length: 16 + device.length, kind: at % 2 ? 'k4' : 'k6', name: deviceName(device.id), words: `device ${keyWords(device)}, ${size(device.length)}` }));
  return [
    make('h3', {}, `${plural(devices.length, 'device')}, to scale within their section`),
    strip(parts, section.length, `The devices in the order of the file: ${inFile.map(({ id, length }) => `${deviceName(id)} ${size(length)}`).join(', ')}`, 'the section DEVICES', size(section.length)),
    devices.length === 0
      ? null
      : table(
          'Devices in key order',
          ['!Device', '#Id', '#Version', '#Flags', '#From byte', '#Bytes', '#Place in the list'],
          devices.map(({ id, version, flags, offset, length, position }) => [deviceName(id), id, version, flags, whole(offset), whole(length), position]),
        ),
  ];
}

function drawDisks({ disks }) {
  if (disks.length === 0) return [make('h3', {}, 'No disks')];
  return [
    make('h3', {}, plural(disks.length, 'disk')),
    table('Disks in key order', ['!Disk', '"Base image', '"Overlay'], disks.map(({ id, base, overlay }) => [`disk ${id}`, plain(base) || 'none', plain(overlay) || 'none'])),
  ];
}

/** The bytes around a place: three rows of sixteen, the one at the place marked. */
function bytesAround(bytes, place) {
  const row = Math.floor(place / 16) * 16;
  const rows = [row - 16, row, row + 16].filter((start) => start >= 0 && start <= bytes.length);
  const cells = (start) =>
    Array.from({ length: 16 }, (_, column) => {
      const at = start + column;
      const word = at < bytes.length ? bytes[at].toString(16).padStart(2, '0').toUpperCase() : at === bytes.length ? 'end' : '';
      if (at !== place) return make('td', {}, word === 'end' ? '' : word);
      return make('td', { class: 'here' }, word, make('span', { class: 'away' }, ', the place'));
    });
  const letters = (start) => Array.from(bytes.subarray(start, start + 16), (byte) => (byte >= 32 && byte < 127 ? String.fromCharCode(byte) : '\u00b7')).join('');
  return make(
    'div',
    { class: 'scroll', tabindex: '0', role: 'region', 'aria-label': `The bytes around ${place}` },
    make(
      'table',
      { class: 'hex' },
      make('thead', { class: 'away' }, make('tr', {}, make('th', { scope: 'col' }, 'From byte'), Array.from({ length: 16 }, (_, at) => make('th', { scope: 'col' }, `${at}`)), make('th', { scope: 'col' }, 'As letters'))),
      make('tbody', {}, rows.map((start) => make('tr', {}, make('th', { scope: 'row' }, `${start}`), cells(start), make('td', { class: 'letters' }, letters(start))))),
    ),
  );
}

function verdict(kind, sign, ...children) {
  return make('div', { class: `verdict ${kind}` }, make('span', { 'aria-hidden': 'true' }, sign), make('div', {}, children));
}

// ---- a file

function looked(library, name, bytes) {
  const file = { name, bytes };
  try {
    file.sections = library.sections(bytes);
    file.devices = library.devices(bytes);
    file.disks = library.disks(bytes);
    file.missing = library.ready(bytes);
    file.form = library.canonical(bytes);
    file.canonical = sameBytes(file.form, bytes);
  } catch (error) {
    file.error = error;
    if (error instanceof Refusal) {
      file.before = sectionsBefore(library, bytes, error.place);
      file.rescued = rescuedOf(library, bytes);
    }
  }
  return file;
}

/** So many losses are shown one by one. */
const SHOWN = 100;

/** What salvage would keep of a refused file: its canonical form, the sections, and what is lost. Nothing, where the header itself is wrong. */
function rescuedOf(library, bytes) {
  try {
    const { file: form, losses } = library.salvage(bytes);
    const kept = keptSections(library, bytes, losses);
    const shown = losses.slice(0, SHOWN).map((loss) => ({ ...loss, id: loss.bytes < 16 ? undefined : idAt(library, bytes, loss.start) }));
    return { form, kept, shown, count: losses.length, lost: losses.reduce((sum, loss) => sum + loss.bytes, 0) };
  } catch (error) {
    if (error instanceof Refusal) return undefined;
    throw error;
  }
}

/** The sections that are kept, in the order of the file, each with its start there: the file without what is lost is one that is accepted. */
function keptSections(library, bytes, losses) {
  const rest = new Uint8Array(bytes.length - losses.reduce((sum, loss) => sum + loss.bytes, 0));
  let [from, to] = [0, 0];
  for (const { start, bytes: length } of [...losses, { start: bytes.length, bytes: 0 }]) {
    rest.set(bytes.subarray(from, start), to);
    to += start - from;
    from = start + length;
  }
  let [at, next] = [16, 0];
  return library.sections(rest).map((section) => {
    for (; losses[next]?.start === at; next += 1) at += losses[next].bytes;
    const start = at;
    at += 16 + section.length;
    return { ...section, start };
  });
}

function sameBytes(one, other) {
  if (one.length !== other.length) return false;
  for (let at = 0; at < one.length; at += 1) if (one[at] !== other[at]) return false;
  return true;
}

function readiness({ missing }) {
  if (missing.length === 0) return verdict('good', '\u2713', make('p', {}, make('strong', {}, 'Ready to restore')), make('p', { class: 'plain' }, 'Every device and disk that a panel needs is there.'));
  return verdict(
    'warn',
    '!',
    make('p', {}, make('strong', {}, 'Not ready to restore')),
    make('p', { class: 'plain' }, 'The file follows the rules, but a panel needs what it does not have:'),
    make('ul', { class: 'plain' }, missing.map((one) => make('li', {}, missingWords(one)))),
  );
}

/**
 * The section that a place is charged to, and the sections before it: a file that is cut at the place is refused at the start of that section, and one that is cut
 * there is taken. Nothing, where the place is in the header.
 */
function sectionsBefore(library, bytes, place) {
  const cut = library.raw.check(bytes.subarray(0, place));
  const start = cut.number === 0 ? place : cut.number === CUT ? cut.place : 0;
  if (start < 16 || start > bytes.length || library.raw.check(bytes.subarray(0, start)).number !== 0) return null;
  return { start, id: idAt(library, bytes, start), sections: library.sections(bytes.subarray(0, start)) };
}
const CUT = 7;

/** The id of the section that starts there, if its first 8 bytes are there. They have the layout of a device's, and are read as those of the only device of a file. */
function idAt(library, bytes, start) {
  if (start + 8 > bytes.length) return undefined;
  const file = new Uint8Array(52);
  file.set(bytes.subarray(0, 16));
  file.set([4, 0, 0, 0, 1, 0, 0, 0, 20], 16);
  file.set([1], 32);
  file.set(bytes.subarray(start, start + 8), 36);
  return library.devices(file)[0].id;
}

function drawPlace(bytes, place, before) {
  const parts = before ? partsOf(before.sections).parts : [];
  const words = [];
  if (before) {
    const name = before.id === undefined ? 'a section that is cut' : `the section ${sectionName(before.id)}`;
    const count = before.sections.length;
    words.push(before.start === place ? `There ${name} starts.` : `It lies in ${name}, which starts at byte ${whole(before.start)}.`);
    words.push(count === 0 ? 'No section stands before it.' : count === 1 ? 'The section before it follows the rules.' : `The ${count} sections before it follow the rules.`);
  } else if (place < 16) words.push('It lies in the header of the file.');
  return [
    make('p', {}, words.join(' ')),
    strip(parts, bytes.length, `The place, ${share(place, bytes.length)} into the file`, before?.sections.length ? 'in colour: what stands before the section in question' : 'the whole file', size(bytes.length), place),
  ];
}

function drawRescued({ bytes, rescued: { form, kept, shown, count, lost } }) {
  const nameOf = ({ id }) => (id === undefined ? 'a header that is cut' : sectionName(id));
  const parts = [
    { start: 0, length: 16, kind: 'k0', words: 'the header of the file, 16 bytes' },
    ...kept.map(({ id, start, length }) => ({ start, length: 16 + length, kind: colour(id), name: sectionName(id), words: `kept: ${sectionName(id)}, ${size(length)}` })),
    ...shown.map((loss) => ({ start: loss.start, length: loss.bytes, kind: 'lost', words: `lost: ${nameOf(loss)}, ${size(loss.bytes)}, ${loss.name}` })),
  ];
  const words = `Kept: ${kept.map(({ id }) => sectionName(id)).join(', ') || 'no section'}. Lost: ${shown.map(nameOf).join(', ')}`;
  return [
    make('h3', {}, 'What salvage would keep'),
    make('p', {}, `${plural(kept.length, 'section')}, in canonical form ${size(form.length)}. Of ${plural(bytes.length, 'byte')} ${whole(lost)} ${lost === 1 ? 'is' : 'are'} lost.`),
    strip(parts, bytes.length, words, 'in colour: what is kept; grey: what is lost', size(bytes.length)),
    table(
      'What is lost, in the order of the file',
      ['!Section', '#From byte', '#Bytes', '"Why'],
      shown.map((loss) => [nameOf(loss), whole(loss.start), whole(loss.bytes), `${loss.number} ${loss.name}: ${loss.words}`]),
    ),
    count > SHOWN ? make('p', { class: 'soft' }, `and ${plural(count - SHOWN, 'loss', 'losses')} more`) : null,
  ];
}

function drawRefusal({ bytes, error, before }) {
  if (!(error instanceof Refusal)) return [verdict('bad', '\u2715', make('p', {}, make('strong', {}, 'Not read')), make('p', { class: 'plain' }, error.message))];
  const { number, name, place } = error;
  const row = CARD[number];
  return [
    verdict(
      'bad',
      '\u2715',
      make('p', {}, make('strong', {}, `Refused: ${row.when}`)),
      make('p', { class: 'plain' }, row.todo),
      make('p', { class: 'soft' }, `${number} ${name} at byte ${whole(place)} of ${whole(bytes.length)}`),
    ),
    make('h3', {}, `The bytes around byte ${whole(place)}`),
    bytesAround(bytes, Math.min(place, bytes.length)),
    make('h3', {}, 'Where that is in the file, to scale'),
    drawPlace(bytes, place, before),
  ];
}

function save({ name }, form, kind) {
  const address = URL.createObjectURL(new Blob([form], { type: 'application/octet-stream' }));
  const link = make('a', { href: address, download: name.replace(/(\.[^.]*)?$/, `.${kind}$1`) });
  link.click();
  setTimeout(() => URL.revokeObjectURL(address), 60_000);
}

function drawFile(file) {
  const remove = make('button', { class: 'quiet', type: 'button', 'aria-label': `Remove ${plain(file.name)} from the page`, onclick: () => put(files.filter((one) => one !== file)).then(() => $('choose').focus()) }, 'Remove');
  const top = make('div', { class: 'top' }, make('h2', {}, plain(file.name)), make('span', { class: 'soft' }, size(file.length ?? file.bytes.length)));
  const card = (...children) => make('article', { class: 'card', 'aria-label': plain(file.name) }, top, children);
  if (file.error) {
    const keep = file.rescued && make('button', { type: 'button', onclick: () => save(file, file.rescued.form, 'salvaged') }, 'Save what is kept');
    return card(drawRefusal(file), file.rescued && drawRescued(file), make('div', { class: 'acts' }, keep, remove));
  }
  const order = file.canonical ? 'It is in canonical form.' : 'Its canonical form has other bytes: the order of sections, or of entries, differs.';
  return card(
    verdict('good', '\u2713', make('p', {}, make('strong', {}, 'Follows the rules')), make('p', { class: 'plain' }, order)),
    readiness(file),
    make('div', { class: 'acts' }, make('button', { type: 'button', onclick: () => save(file, file.form, 'canonical') }, 'Save the canonical form'), remove),
    drawSections(file),
    drawDevices(file),
    drawDisks(file),
  );
}

// ---- two files

/** What differs between two lists by key: what only one has, and what both have with other bytes. */
function differing(ones, others, key, bytes) {
  const theirs = new Map(others.map((other) => [key(other), other]));
  const rows = [];
  for (const one of ones) {
    const other = theirs.get(key(one));
    theirs.delete(key(one));
    if (!other) rows.push([key(one), 'only in the first']);
    else if (!sameBytes(bytes[0](one), bytes[1](other))) rows.push([key(one), 'differs']);
  }
  return [...rows, ...[...theirs.keys()].map((name) => [name, 'only in the second'])];
}

function differences(library, files) {
  const forms = files.map(({ form }) => form);
  const payload = forms.map((form) => ({ offset, length }) => form.subarray(offset, offset + length));
  const texts = forms.map((form) => ({ baseOffset, overlayOffset, overlayLength }) => form.subarray(baseOffset - 4, overlayOffset + overlayLength));
  const numbered = forms.map((form) => {
    const met = new Map();
    return library.sections(form).filter(({ id }) => id !== 4 && id !== 5).map((section) => {
      const again = met.get(section.id) ?? 0;
      met.set(section.id, again + 1);
      return { ...section, again };
    });
  });
  const sectionKey = ({ id, version, flags, again }) => `section ${sectionName(id)}${again ? ` (${again + 1})` : ''}${id >= 1 && id <= 8 ? `, version ${version}` : `, version ${version}, flags ${flags}`}`;
  const devices = forms.map((form) => library.devices(form));
  const disks = forms.map((form) => library.disks(form));
  return [
    ...differing(...numbered, sectionKey, payload),
    ...differing(...devices, (device) => `device ${keyWords(device)}`, payload),
    ...differing(...disks, ({ id }) => `disk ${id}`, texts),
  ];
}

function drawComparison(library, two) {
  const names = two.map(({ name }) => plain(name)).join(' and ');
  const card = (...children) => make('section', { class: 'card', 'aria-label': `${names} compared` }, make('h2', {}, 'Compared'), children);
  const refused = two.filter(({ error }) => error);
  if (refused.length) return card(verdict('warn', '!', make('p', { class: 'plain' }, `Not compared: ${refused.map(({ name }) => plain(name)).join(' and ')} ${refused.length === 1 ? 'is' : 'are'} refused.`)));
  if (sameBytes(two[0].bytes, two[1].bytes)) return card(verdict('good', '=', make('p', {}, make('strong', {}, 'The same bytes'))));
  if (sameBytes(two[0].form, two[1].form)) return card(verdict('good', '=', make('p', {}, make('strong', {}, 'The same content')), make('p', { class: 'plain' }, 'The bytes differ only in order: both have one canonical form.')));
  const rows = differences(library, two);
  return card(
    verdict('warn', '\u2260', make('p', {}, make('strong', {}, `Not the same: ${plural(rows.length, 'difference')}`)), make('p', { class: 'plain' }, `The first is ${plain(two[0].name)}, the second ${plain(two[1].name)}.`)),
    make('p', {}),
    table('What differs', ['!What', '"How'], rows),
  );
}

// ---- the page

let files = [];

async function put(next) {
  files = next.slice(-2);
  const library = await cimbrolau;
  $('files').replaceChildren(...files.map(drawFile));
  $('compared').replaceChildren(...(files.length === 2 ? [drawComparison(library, files)] : []));
}

/** Says something to those who hear the page. */
const say = (words) => {
  $('status').textContent = words;
};

async function take(chosen) {
  const library = await cimbrolau;
  const read = [];
  for (const file of chosen.slice(-2)) {
    say(`Reading ${file.name}`);
    // The words are shown before the reading, which may take a second.
    await new Promise((resolve) => setTimeout(resolve, 30));
    try {
      if (file.size > MOST_LENT) throw new RangeError(`it has ${whole(file.size)} bytes, and a snapshot has at most 1 GiB`);
      read.push(looked(library, file.name, new Uint8Array(await file.arrayBuffer())));
    } catch (error) {
      read.push({ name: file.name, bytes: new Uint8Array(), length: file.size, error: new Error(`The file cannot be read: ${error.message}`) });
    }
  }
  if (read.length === 0) return;
  await put([...files, ...read]);
  say(read.map(({ name, error, missing }) => `${name}: ${error ? `refused, ${error.message}` : missing.length ? 'follows the rules, not ready to restore' : 'follows the rules, ready to restore'}`).join('. '));
}

$('choose').addEventListener('change', (event) => {
  // A copy: the list itself is emptied.
  take([...event.target.files]);
  event.target.value = '';
});
for (const name of ['dragenter', 'dragover']) {
  document.addEventListener(name, (event) => {
    event.preventDefault();
    $('drop').classList.add('over');
  });
}
for (const name of ['dragleave', 'drop']) document.addEventListener(name, () => $('drop').classList.remove('over'));
document.addEventListener('drop', (event) => {
  event.preventDefault();
  take([...event.dataTransfer.files]);
});
