// The page in Chromium, over the DevTools protocol: see tools/browser-test. The protocol goes over the browser's own pipe (descriptors 3 and 4), so that no port is opened.
import assert from 'node:assert/strict';
import { spawn } from 'node:child_process';
import { mkdtempSync, readFileSync, readdirSync, rmSync, writeFileSync } from 'node:fs';
import { tmpdir } from 'node:os';
import { join } from 'node:path';
import { fileURLToPath, pathToFileURL } from 'node:url';

import { load } from '../cimbrolau.mjs';

const root = fileURLToPath(new URL('../../', import.meta.url));
const pictures = process.argv.includes('--pictures');
const folder = mkdtempSync(join(tmpdir(), 'cimbrolau-page-'));
const page = pathToFileURL(join(root, 'target/web/cimbrolau.html')).href;

// ---- files to look at

const cimbrolau = await load(readFileSync(join(root, 'target/wasm/cimbrolau.wasm')));
const ascii = (text) => new TextEncoder().encode(text);
const le = (bytes, value) => Array.from({ length: bytes }, (_, at) => Number((BigInt(value) >> BigInt(8 * at)) & 255n));
const section = (id, version, payload) => [...le(4, id), ...le(2, version), 0, 0, ...le(8, payload.length), ...payload];

/** A panel that is ready to restore, with 96 KiB of RAM. */
function panel() {
  const label = ascii('panel, after the night shift');
  const meta = [...le(8, 7), 0, ...le(8, 1_760_000_000_000n), 1, ...le(4, label.length), ...label];
  const ram = Array.from({ length: 96 << 10 }, (_, at) => (at * 7) & 255);
  let file = new Uint8Array([...ascii('AEROSNAP'), 1, 0, 1, 0, 0, 0, 0, 0, ...section(6, 1, ram), ...section(3, 2, new Array(264).fill(0)), ...section(2, 2, new Array(1183).fill(0)), ...section(1, 1, meta)]);
  const wrapper = new Uint8Array([...ascii('AERO'), 1, 0, 0, 0, ...ascii('DSKC'), 1, 0, 0, 0, 1, 0, 0, 0, 250, 0, 0, 0, ...ascii('AHCP'), ...le(4, 640), ...new Array(640).fill(5)]);
  let card = cimbrolau.open(file);
  for (const [id, length] of [[3, 96], [4, 128], [6, 0], [7, 2048], [13, 40], [16, 64], [17, 288], [19, 1500], [21, 400]]) {
    ({ file, card } = cimbrolau.addDevice(file, card, { id, version: 1, flags: 0 }, id === 6 ? wrapper : new Uint8Array(length).fill(id)));
  }
  ({ file, card } = cimbrolau.addDisk(file, card, 0, 'panel.img', 'panel-night.overlay'));
  return cimbrolau.addDisk(file, card, 1, 'messwerte-übersicht.img', '');
}

const { file: good, card: goodCard } = panel();
const damaged = good.slice();
const disk = cimbrolau.disks(good)[1];
damaged[disk.baseOffset + 11] = 0xfc; // the letter in another encoding
const fewer = cimbrolau.removeDisk(good, goodCard, 1);
const { file: lesser } = cimbrolau.replaceDevice(fewer.file, fewer.card, { id: 4, version: 1, flags: 0 }, new Uint8Array(5));
const names = { 'panel.aerosnap': good, 'panel-damaged.aerosnap': damaged, 'panel-lesser.aerosnap': lesser, 'nothing.aerosnap': new Uint8Array() };
for (const [name, bytes] of Object.entries(names)) writeFileSync(join(folder, name), bytes);
const path = (name) => join(folder, name);

// ---- the browser

const browser = spawn(
  process.env.CHROMIUM ?? 'chromium',
  ['--headless=new', ...(process.getuid() === 0 ? ['--no-sandbox'] : []), '--disable-gpu', '--no-first-run', '--hide-scrollbars', '--force-device-scale-factor=1', `--user-data-dir=${join(folder, 'profile')}`, '--remote-debugging-pipe', 'about:blank'],
  { stdio: ['ignore', 'ignore', 'ignore', 'pipe', 'pipe'] },
);
const waiting = new Map();
const events = [];
let asked = 0;
let held = '';
browser.stdio[4].on('data', (data) => {
  held += data;
  const messages = held.split('\0');
  held = messages.pop();
  for (const text of messages) {
    const message = JSON.parse(text);
    if (message.id === undefined) events.push(message);
    else {
      const { resolve, reject } = waiting.get(message.id);
      waiting.delete(message.id);
      if (message.error) reject(new Error(message.error.message));
      else resolve(message.result);
    }
  }
});
browser.on('exit', () => waiting.forEach(({ reject }) => reject(new Error('Chromium has ended'))));
function ask(method, params = {}, sessionId = undefined) {
  asked += 1;
  browser.stdio[3].write(`${JSON.stringify({ id: asked, method, params, sessionId })}\0`);
  return new Promise((resolve, reject) => waiting.set(asked, { resolve, reject }));
}

const { targetId } = await ask('Target.createTarget', { url: 'about:blank' });
const { sessionId } = await ask('Target.attachToTarget', { targetId, flatten: true });
const tab = (method, params) => ask(method, params, sessionId);
const pause = (milliseconds) => new Promise((resolve) => setTimeout(resolve, milliseconds));

/** What an expression gives in the page. */
async function says(expression) {
  const { result, exceptionDetails } = await tab('Runtime.evaluate', { expression, awaitPromise: true, returnByValue: true });
  if (exceptionDetails) throw new Error(exceptionDetails.exception?.description ?? exceptionDetails.text);
  return result.value;
}
async function until(expression) {
  for (let tries = 0; tries < 200; tries += 1) {
    if (await says(expression)) return;
    await pause(50);
  }
  throw new Error(`never came: ${expression}\n${await says('document.body.innerText')}`);
}
const text = () => says('document.querySelector("main").innerText');

async function open() {
  await tab('Page.navigate', { url: page });
  await until('document.readyState === "complete" && !!document.querySelector("#choose")');
}
/** Files chosen as by the file dialog. */
async function choose(...chosen) {
  const { root: document } = await tab('DOM.getDocument');
  const { nodeId } = await tab('DOM.querySelector', { nodeId: document.nodeId, selector: '#choose' });
  const cards = await says('document.querySelectorAll("#files article").length');
  await tab('DOM.setFileInputFiles', { nodeId, files: chosen.map(path) });
  await until(`document.querySelectorAll("#files article").length >= ${Math.min(2, cards + chosen.length)} && !document.querySelector("#status").textContent.startsWith("Reading")`);
}
/** Waits until a file is saved. */
async function arrives(downloads, name) {
  for (let tries = 0; tries < 100; tries += 1) {
    try {
      if (readdirSync(downloads).includes(name)) return;
    } catch {
      // The folder comes with the first file.
    }
    await pause(50);
  }
}
async function picture(name, scheme) {
  await tab('Emulation.setEmulatedMedia', { features: [{ name: 'prefers-color-scheme', value: scheme }] });
  const height = await says('Math.ceil(document.documentElement.getBoundingClientRect().height)');
  await tab('Emulation.setDeviceMetricsOverride', { width: 1120, height, deviceScaleFactor: 1, mobile: false });
  const { data } = await tab('Page.captureScreenshot', { format: 'png', captureBeyondViewport: true });
  writeFileSync(name, Buffer.from(data, 'base64'));
  await tab('Emulation.clearDeviceMetricsOverride');
}
async function press(key, code, windowsVirtualKeyCode, characters) {
  for (const type of ['keyDown', 'keyUp']) await tab('Input.dispatchKeyEvent', { type, key, code, windowsVirtualKeyCode, text: type === 'keyDown' ? characters : undefined });
}

const tests = {
  async 'a good file'() {
    await open();
    await choose('panel.aerosnap');
    const words = await text();
    for (const wanted of ['Follows the rules', 'Ready to restore', '6 sections, to scale', 'the same without RAM', '9 devices', 'HPET', 'messwerte-übersicht.img', 'panel-night.overlay']) assert.ok(words.includes(wanted), `${wanted}\n${words}`);
    assert.equal(await says('document.querySelectorAll("article tbody tr").length'), 6 + 9 + 2);
    if (pictures) await picture(join(root, 'docs/page-good.png'), 'light');
  },
  async 'parts are drawn to scale'() {
    await open();
    await choose('panel.aerosnap');
    const widths = await says('[...document.querySelector("figure svg").querySelectorAll("rect")].map((part) => [Number(part.getAttribute("x")), Number(part.getAttribute("width"))])');
    const order = cimbrolau.sections(good);
    order.forEach(({ offset, length }, at) => {
      const [x, width] = widths[at + 1];
      assert.ok(Math.abs(x - (1000 * (offset - 16)) / good.length) < 0.01, `section ${at} at ${x}`);
      assert.ok(Math.abs(width - Math.max(0.8, (1000 * (length + 16)) / good.length)) < 0.01, `section ${at}, ${width}`);
    });
  },
  async 'a damaged file'() {
    await open();
    await choose('panel-damaged.aerosnap');
    const words = await text();
    const { number, place } = cimbrolau.raw.check(damaged);
    assert.equal(number, 14);
    assert.equal(place, disk.baseOffset + 11);
    for (const wanted of ['Refused: a text is not UTF-8', '14 TEXT at byte', 'correct the text there', `It lies in the section DISKS, which starts at byte 6\u202f961. The 4 sections before it follow the rules.`]) assert.ok(words.includes(wanted), `${wanted}\n${words}`);
    assert.equal(await says('document.querySelector(".here").firstChild.textContent'), 'FC');
    assert.equal(await says('Number(document.querySelector(".here").parentNode.querySelector("th").textContent)'), Math.floor(place / 16) * 16);
    assert.deepEqual(await says('[...document.querySelectorAll(".acts button")].map((button) => button.textContent)'), ['Save what is kept', 'Remove']);
    if (pictures) await picture(join(root, 'docs/page-damaged.png'), 'dark');
  },
  async 'damage in other places'() {
    const of = (bytes, at, value) => Object.assign(bytes.slice(), { [at]: value });
    const [meta, cpu] = cimbrolau.sections(good);
    for (const [name, bytes, wanted] of [
      ['header', of(good, 10, 7), 'It lies in the header of the file.'],
      ['first', of(good, meta.offset + 8, 9), 'It lies in the section META, which starts at byte 16. No section stands before it.'],
      ['second', of(good, cpu.offset + 144, 9), 'It lies in the section CPU, which starts at byte 82. The section before it follows the rules.'],
      ['cut', good.slice(0, -1), 'There the section RAM starts. The 5 sections before it follow the rules.'],
      ['stump', new Uint8Array([...good, 1, 2]), 'There a section that is cut starts. The 6 sections before it follow the rules.'],
    ]) {
      await open();
      writeFileSync(path(`${name}.aerosnap`), bytes);
      await choose(`${name}.aerosnap`);
      const words = await text();
      assert.ok(words.includes(wanted), `${wanted}\n${words}`);
    }
  },
  async 'what salvage would keep'() {
    const { file: kept, losses } = cimbrolau.salvage(damaged);
    assert.deepEqual(losses.map(({ start, name }) => [start, name]), [[6961, 'TEXT']]);
    await open();
    await choose('panel-damaged.aerosnap');
    const words = await text();
    for (const wanted of ['What salvage would keep', '5 sections, in canonical form', `Of ${good.length.toLocaleString('en').replaceAll(',', '\u202f')} bytes ${losses[0].bytes} are lost.`, '14 TEXT: not UTF-8']) assert.ok(words.includes(wanted), `${wanted}\n${words}`);
    const downloads = join(folder, 'kept');
    await ask('Browser.setDownloadBehavior', { behavior: 'allow', downloadPath: downloads });
    await says('[...document.querySelectorAll("button")].find((button) => button.textContent === "Save what is kept").click()');
    await arrives(downloads, 'panel-damaged.salvaged.aerosnap');
    assert.equal(Buffer.compare(readFileSync(join(downloads, 'panel-damaged.salvaged.aerosnap')), kept), 0);
    // What was saved follows the rules, and lacks the disks.
    writeFileSync(path('panel-salvaged.aerosnap'), kept);
    await open();
    await choose('panel-salvaged.aerosnap');
    assert.match(await text(), /5 sections/);
    assert.doesNotMatch(await text(), /Refused/);
    if (pictures) await picture(join(root, 'docs/page-salvaged.png'), 'light');
    // Of a file whose header is wrong nothing can be kept.
    await open();
    await choose('nothing.aerosnap');
    assert.doesNotMatch(await text(), /salvage/);
  },
  async 'a file that is dropped'() {
    await open();
    const data = { items: [], files: [path('panel.aerosnap')], dragOperationsMask: 1 };
    for (const type of ['dragEnter', 'dragOver', 'drop']) await tab('Input.dispatchDragEvent', { type, x: 300, y: 300, data });
    await until('document.querySelector("main").innerText.includes("Ready to restore")');
  },
  async 'an empty file'() {
    await open();
    await choose('nothing.aerosnap');
    assert.match(await text(), /Refused: the file or wrapper has under 16 bytes/);
    assert.match(await says('document.querySelector(".here").textContent'), /^end/);
  },
  async 'two files compared, and one not ready'() {
    await open();
    await choose('panel.aerosnap', 'panel-lesser.aerosnap');
    const words = await text();
    for (const wanted of ['Not the same: 2 differences', 'device 4 RTC, version 1, flags 0', 'only in the first', 'differs', 'Not ready to restore']) assert.ok(words.includes(wanted), `${wanted}\n${words}`);
    assert.match(words, /disk 1\s+only in the first/);
    await choose('panel-lesser.aerosnap');
    assert.match(await text(), /The same bytes/);
    await choose('panel-damaged.aerosnap');
    assert.match(await text(), /Not compared: panel-damaged.aerosnap is refused/);
  },
  async 'the canonical form is saved'() {
    await open();
    const downloads = join(folder, 'saved');
    await ask('Browser.setDownloadBehavior', { behavior: 'allow', downloadPath: downloads });
    await choose('panel.aerosnap');
    await says('[...document.querySelectorAll("button")].find((button) => button.textContent.startsWith("Save")).click()');
    await arrives(downloads, 'panel.canonical.aerosnap');
    assert.equal(Buffer.compare(readFileSync(join(downloads, 'panel.canonical.aerosnap')), cimbrolau.canonical(good)), 0);
  },
  async 'the policy lets nothing out'() {
    await open();
    await says('globalThis.stopped = []; document.addEventListener("securitypolicyviolation", (event) => stopped.push(event.effectiveDirective))');
    assert.equal(await says('fetch("https://example.org/").then(() => "out", () => "stopped")'), 'stopped');
    assert.equal(await says(`fetch(${JSON.stringify(page)}).then(() => "out", () => "stopped")`), 'stopped');
    await says('document.body.append(Object.assign(new Image(), { src: "https://example.org/a.png" }))');
    await says('document.body.append(Object.assign(document.createElement("script"), { textContent: "globalThis.ran = 1" }))');
    assert.equal(await says('globalThis.ran'), undefined);
    await until('stopped.length >= 4');
    assert.deepEqual((await says('stopped')).sort(), ['connect-src', 'connect-src', 'img-src', 'script-src-elem']);
  },
  async 'the page asks for nothing'() {
    await tab('Network.enable');
    const before = events.length;
    await open();
    await choose('panel.aerosnap');
    const wanted = events.slice(before).filter(({ method }) => method === 'Network.requestWillBeSent').map(({ params }) => params.request.url);
    assert.deepEqual([...new Set(wanted)].filter((address) => address !== page && !address.startsWith('data:') && !address.startsWith('blob:')), []);
  },
  async 'by the keyboard, and for those who hear it'() {
    await open();
    await press('Tab', 'Tab', 9);
    assert.equal(await says('document.activeElement.id'), 'choose');
    assert.match(await says('getComputedStyle(document.querySelector("#drop")).outlineStyle'), /solid/);
    await choose('panel.aerosnap');
    assert.match(await says('document.querySelector("#status").textContent'), /^panel.aerosnap: follows the rules, ready to restore$/);
    await press('Tab', 'Tab', 9);
    assert.equal(await says('document.activeElement.textContent'), 'Save the canonical form');
    await press('Tab', 'Tab', 9);
    await press('Enter', 'Enter', 13, '\r');
    await until('document.querySelectorAll("#files article").length === 0 && document.activeElement.id === "choose"');
    await tab('Accessibility.enable');
    await choose('panel.aerosnap');
    const { nodes } = await tab('Accessibility.getFullAXTree');
    const named = (role) => nodes.filter((node) => node.role?.value === role && !node.ignored).map((node) => node.name?.value);
    for (const role of ['button', 'article', 'region', 'image', 'img']) for (const name of named(role)) assert.ok(name, `a nameless ${role}`);
    assert.ok([...named('image'), ...named('img')].some((name) => name.startsWith('The sections in the order of the file: RAM') || name.includes('RAM 96.0 KiB')), 'the drawing has words');
    assert.ok(named('rowheader').length >= 17);
  },
  async 'names that would hide something'() {
    await open();
    const { file } = cimbrolau.addDisk(good, goodCard, 2, 'a\u202egmi.x', '<img src=x>');
    writeFileSync(path('hidden.aerosnap'), file);
    await choose('hidden.aerosnap');
    const words = await text();
    assert.ok(words.includes('a\\u{202e}gmi.x') && words.includes('<img src=x>'), words);
  },
};

let failed = 0;
try {
  for (const method of ['Page.enable', 'DOM.enable', 'Runtime.enable', 'Log.enable']) await tab(method);
  await tab('Emulation.setFocusEmulationEnabled', { enabled: true });
  for (const [name, run] of Object.entries(tests)) {
    const before = events.length;
    try {
      await run();
      const thrown = events.slice(before).filter(({ method }) => method === 'Runtime.exceptionThrown').map(({ params }) => params.exceptionDetails.exception?.description);
      assert.deepEqual(thrown, [], 'errors in the page');
      console.log(`ok: ${name}`);
    } catch (error) {
      failed += 1;
      console.log(`FAILED: ${name}\n${error.stack}`);
    }
  }
} finally {
  browser.kill();
  await new Promise((resolve) => browser.once('exit', resolve));
  rmSync(folder, { recursive: true, force: true, maxRetries: 5 });
}
console.log(`${Object.keys(tests).length - failed} passed, ${failed} failed`);
process.exitCode = failed ? 1 : 0;
