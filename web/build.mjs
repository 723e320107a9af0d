// The page as one file: see tools/page.
import { createHash } from 'node:crypto';
import { existsSync, mkdirSync, readFileSync, writeFileSync } from 'node:fs';

const root = new URL('../', import.meta.url);
const text = (path) => readFileSync(new URL(path, root), 'utf8');
const wasm = new URL('target/wasm/cimbrolau.wasm', root);
if (!existsSync(wasm)) {
  console.error('tools/page: target/wasm/cimbrolau.wasm is not there; make it with tools/library wasm');
  process.exit(1);
}

/** The rows of docs/REFUSALS.md, without the marks of its text. */
function card() {
  const rows = [...text('docs/REFUSALS.md').matchAll(/^\| (\d+) \| [A-Z]+ \| (.*?) \| .*? \| (.*?) \|$/gm)];
  const words = (cell) => cell.replaceAll('`', '');
  return Object.fromEntries(rows.map(([, number, when, todo]) => [number, { when: words(when), todo: words(todo) }]));
}

/** Sections and devices as the command names them. */
function names() {
  const source = text('rust/cim/src/names.rs');
  const of = (table) => {
    const [, body] = source.match(new RegExp(`const ${table}: [^=]*= \\[([^;]*)\\];`));
    return Object.fromEntries([...body.matchAll(/\((\d+), "(\w+)"\)/g)].map(([, id, name]) => [id, name]));
  };
  return { sections: of('SECTIONS'), devices: of('DEVICES') };
}

const embedded = [
  `const WASM = '${readFileSync(wasm).toString('base64')}';`,
  `const CARD = ${JSON.stringify(card())};`,
  `const NAMES = ${JSON.stringify(names())};`,
];
// One script: what the modules give to each other stands side by side, the page's own in a block, since both have small functions of the same names.
const module = text('web/cimbrolau.mjs').replace(/^export /gm, '');
const page = text('web/page.mjs').replace(/^import .*\n/gm, '');
const script = `\n${module}\n{\n${embedded.join('\n')}\n${page}}\n`;
if (/<\/script/i.test(script) || /^(import|export)\b/m.test(script)) throw new Error('the script does not stand alone');

const hash = (content) => `'sha256-${createHash('sha256').update(content).digest('base64')}'`;
const source = text('web/index.html');
const [, style] = source.match(/<style>([^]*?)<\/style>/);
const policy = `default-src 'none'; script-src ${hash(script)} 'wasm-unsafe-eval'; style-src ${hash(style)}; base-uri 'none'; form-action 'none'`;
const comment = /<!--[^]*?-->\n/;
const built = source.replace(comment, '').replace('POLICY', () => policy).replace('SCRIPT', () => script);

mkdirSync(new URL('target/web/', root), { recursive: true });
writeFileSync(new URL('target/web/cimbrolau.html', root), built);
console.log(`tools/page: target/web/cimbrolau.html, ${Buffer.byteLength(built)} bytes`);
