// The page in a document: a file chosen or dropped, a text pasted or carried, and which of them is shown.
import assert from 'node:assert/strict';
import { File } from 'node:buffer';
import { test } from 'node:test';
import { detailsOf, opened, page, sheetOf } from './page.mjs';

const { TEXT_MOST, pageOf } = page;
const [plain, walls] = [detailsOf('plain-block'), sheetOf('walls')];

// What follows from a file comes a little later.
const settled = () => new Promise((resolve) => setTimeout(resolve, 5));

async function choose({ parts }, file) {
  parts.file.heard.click();
  assert.equal(parts.file.value, '', 'the same file can be chosen again');
  Object.assign(parts.file, { value: file.name, files: [file] });
  parts.file.heard.change();
  await settled();
}

async function drop({ document }, ...files) {
  let prevented = false;
  document.heard.drop({ dataTransfer: { files }, preventDefault: () => { prevented = true; } });
  assert.ok(prevented, 'the browser does not open the file itself');
  await settled();
}

function paste({ parts }, text) {
  parts.paste.value = text;
  parts.show.heard.click();
}

// The page shows a text, with this name; without a text, nothing.
function assertShown({ document, parts }, text, name) {
  const { title, inside } = text === '' ? { title: 'See a sheet', inside: '' } : pageOf(text);
  assert.equal(parts.shown.innerHTML, (name ? `<p class="source">${name}</p>` : '') + inside);
  assert.equal(document.title, name ? `${title}: ${name}` : title);
}

// A file that is read when it is let.
function slow(text, name) {
  const file = new File([text], name);
  let read;
  file.arrayBuffer = () => new Promise((resolve, reject) => { read = { resolve: () => resolve(new TextEncoder().encode(text).buffer), reject }; });
  return { file, read: async (end = 'resolve') => { read[end](new Error('not readable')); await settled(); } };
}

test('a file that is chosen or dropped is shown, with its name', async () => {
  const here = opened();
  await choose(here, new File([plain], 'plain-block.details'));
  assertShown(here, plain, 'plain-block.details');
  here.parts.open.classList.toggle('dragged', true);
  await drop(here, new File([walls], 'walls.sheet'), new File([plain], 'plain-block.details'));
  assertShown(here, walls, 'walls.sheet');
  assert.equal(here.parts.open.marks.size, 0);
});

test('what is dropped and no file changes nothing, nor does a choice that is given up', async () => {
  const here = opened();
  paste(here, plain);
  await drop(here);
  here.parts.file.heard.change();
  await settled();
  assertShown(here, plain, 'pasted text');
});

test('the mark while something is dragged', () => {
  const { document, parts } = opened();
  const drag = (type) => document.heard[type]({ type, preventDefault() {} });
  drag('dragover');
  assert.deepEqual([...parts.open.marks], ['dragged']);
  drag('dragleave');
  assert.equal(parts.open.marks.size, 0);
});

test('a pasted text is shown as one, also without its last line feed', () => {
  const here = opened();
  for (const text of [plain, plain.slice(0, -1)]) {
    paste(here, text);
    assertShown(here, plain, 'pasted text');
  }
  paste(here, '');
  assert.match(here.parts.shown.innerHTML, /There is nothing in it/);
});

test('a text that the page carries is shown, with the page\'s own name', () => {
  assertShown(opened(plain, '/folder/plain-block.html'), plain, 'plain-block.html');
  assertShown(opened(plain, '/a%20b/%C3%87ar%C5%9F%C4%B1%202.html'), plain, 'Çarşı 2.html');
  assertShown(opened(plain, '/%FDstanbul.html'), plain, '');
  const { document, parts } = opened();
  assert.deepEqual([document.title, parts.shown.innerHTML], ['', '']);
});

test('a file\'s name is escaped', async () => {
  const here = opened();
  await choose(here, new File([plain], '<img src=x>'));
  assert.ok(here.parts.shown.innerHTML.startsWith('<p class="source">&#60;img src=x&#62;</p>'));
});

test('a file that cannot be read: a message, and nothing of the former one', async () => {
  const here = opened(plain);
  const { file, read } = slow(walls, 'gone.details');
  await choose(here, file);
  assertShown(here, '', '');
  await read('reject');
  assert.equal(here.document.title, 'Cannot be shown: gone.details');
  assert.match(here.parts.shown.innerHTML, /^<p class="source">gone\.details<\/p><div class="verdict message" role="alert"><h1>Cannot be shown<\/h1><p>The file cannot be read\.<\/p><\/div>$/);
});

test('the file that was chosen last is shown, whichever is read first', async () => {
  for (const order of [[0, 1], [1, 0]]) {
    const here = opened();
    const files = [slow(plain, 'first.details'), slow(walls, 'second.sheet')];
    for (const { file } of files) await choose(here, file);
    for (const i of order) await files[i].read();
    assertShown(here, walls, 'second.sheet');
  }
});

test('a text that is pasted while a file is read stays, also where the file cannot be read', async () => {
  for (const end of ['resolve', 'reject']) {
    const here = opened();
    const { file, read } = slow(plain, 'plain-block.details');
    await choose(here, file);
    paste(here, walls);
    await read(end);
    assertShown(here, walls, 'pasted text');
  }
});

test('a file that is too long is not read', async () => {
  const here = opened();
  const file = new File(['x'.repeat(TEXT_MOST + 1)], 'long');
  file.arrayBuffer = () => assert.fail('read');
  await choose(here, file);
  assert.match(here.parts.shown.innerHTML, /<p>This is longer than the text of any survey\.<\/p>/);
});

test('a byte-order mark in front of a file is seen', async () => {
  const here = opened();
  await choose(here, new File([`\uFEFF${plain}`], 'marked.details'));
  assert.match(here.parts.shown.innerHTML, /Line 1: A byte-order mark stands in front/);
});
