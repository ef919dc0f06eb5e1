// What the tests share: the functions of the page's script, the page in a document, the samples, and the program `details`, built from its source.
import assert from 'node:assert/strict';
import { execFileSync, spawnSync } from 'node:child_process';
import { mkdtempSync, readdirSync, readFileSync, rmSync } from 'node:fs';
import { tmpdir } from 'node:os';
import { join } from 'node:path';
import { fileURLToPath } from 'node:url';

export const root = fileURLToPath(new URL('../..', import.meta.url));
export const html = readFileSync(join(root, 'page/sheet.html'), 'utf8');

const NAMES = ['DETAILS_LINES', 'SHEET_LINES', 'TEXT_MOST', 'Unreadable', 'readText', 'pageOf', 'verdictSentence', 'memberRow', 'sharePart', 'apart', 'escaped', 'REFUSALS'];

const [, script] = html.match(/<script id="page">\n([\s\S]*?)<\/script>/);

export const page = new Function(`${script}\nreturn { ${NAMES.join(', ')} };`)();

// A part of a document, as far as the script uses one: it keeps what is put into it, and who hears of what is done to it.
class Part {
  constructor() {
    Object.assign(this, { heard: {}, value: '', files: [], innerHTML: '', textContent: '', marks: new Set() });
    this.classList = { remove: (name) => this.marks.delete(name), toggle: (name, on) => this.marks[on ? 'add' : 'delete'](name) };
  }

  addEventListener(type, hear) {
    this.heard[type] = hear;
  }

  focus() {}
}

// The page opened, with a text that it carries or with none: its document and the parts of it.
export function opened(carried = '', pathname = '/sheet.html') {
  const parts = Object.fromEntries([...html.matchAll(/<[a-z]+ [^>]*\bid="(\w+)"/g)].map(([, id]) => [id, new Part()]));
  parts.text.textContent = `\n${carried}`;
  const document = Object.assign(new Part(), { title: '', location: { pathname }, getElementById: (id) => parts[id] });
  new Function('document', script)(document);
  return { document, parts };
}

const samples = readdirSync(join(root, 'samples'));
export const names = samples.filter((name) => name.endsWith('.survey')).map((name) => name.slice(0, -'.survey'.length));
assert.ok(names.length >= 30, 'the samples are there');

export const sheetOf = (name) => readFileSync(join(root, `samples/${name}.sheet`), 'utf8');
export const surveyOf = (name) => readFileSync(join(root, `samples/${name}.survey`), 'utf8');
export const accepted = names.filter((name) => !sheetOf(name).startsWith('E'));
export const refused = names.filter((name) => sheetOf(name).startsWith('E'));

function build() {
  const folder = mkdtempSync(join(tmpdir(), 'details-'));
  process.on('exit', () => rmSync(folder, { recursive: true }));
  const program = join(folder, 'details');
  const parts = ['-I', 'bindings/c', 'bindings/c/details.c', 'crates/exports/out/libexports.a', '-o', program];
  execFileSync('gcc', ['-std=c99', ...parts], { cwd: root });
  return program;
}

const program = build();

// What `details` prints of a sample: its text or its table.
export function printed(word, name) {
  const run = spawnSync(program, [word, join(root, `samples/${name}.survey`)], { encoding: 'utf8', maxBuffer: 1 << 26 });
  assert.equal(run.status, refused.includes(name) ? 1 : 0, run.stderr);
  return run.stdout;
}

export const detailsOf = (name) => printed('text', name);
