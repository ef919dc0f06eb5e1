// What the page reads of sheets and of details texts, good and damaged.
import assert from 'node:assert/strict';
import { test } from 'node:test';
import { accepted, detailsOf, names, page, refused, sheetOf, surveyOf } from './page.mjs';
import { detailsLines, sheetLines } from './written.mjs';

const { TEXT_MOST, readText, pageOf, Unreadable } = page;

for (const name of accepted) {
  test(`${name}: the sheet's fields, line by line`, () => {
    const read = readText(sheetOf(name));
    assert.equal(read.kind, 'sheet');
    assert.equal(sheetLines(read), sheetOf(name));
  });

  test(`${name}: the text's numbers, line by line, and the sheet in them`, () => {
    const read = readText(detailsOf(name));
    assert.equal(read.kind, 'details');
    assert.equal(detailsLines(read), detailsOf(name));
    assert.equal(sheetLines(read), sheetOf(name));
  });

  test(`${name}: the storey and the case that the sheet marks first are those of the text`, () => {
    assert.deepEqual(readText(sheetOf(name)).verdict, readText(detailsOf(name)).verdict);
  });
}

for (const name of refused) {
  test(`${name}: the refusal and its line`, () => {
    const [, refusal, line] = sheetOf(name).match(/^E +(\d+) +(\d+)\n$/);
    const told = { kind: 'refusal', refusal: Number(refusal), line: Number(line) };
    assert.deepEqual(readText(sheetOf(name)), told);
    assert.deepEqual(readText(detailsOf(name)), told);
  });
}

// ---- damaged texts ----

// The page shows a message that names the line, and nothing else.
function assertMessage(text, line, words = '') {
  const { title, inside } = pageOf(text);
  assert.equal(title, 'Cannot be shown', JSON.stringify(text.slice(0, 300)));
  assert.ok(inside.includes(words), inside);
  assert.match(inside, /^<div class="verdict message" role="alert"><h1>Cannot be shown<\/h1><p>Line \d+: [^<]+<\/p>(<pre>[^<]*<\/pre>)?<\/div>$/);
  if (line !== undefined) assert.equal(Number(inside.match(/Line (\d+)/)[1]), line, inside);
}

// One of each kind: both forms of a sheet and of a details text, and both refusal lines.
const TEXTS = ['worked-example', 'cases-worked-example', 'refusal-2-decimal-comma'].flatMap((name) => [
  [`the sheet of ${name}`, sheetOf(name)],
  [`the details of ${name}`, detailsOf(name)],
]);

// A text after a change of one of its lines.
function changed(text, at, change) {
  const lines = text.split('\n');
  lines.splice(at, 1, ...change(lines[at]));
  return lines.join('\n');
}

for (const [about, text] of TEXTS) {
  const count = text.split('\n').length - 1;
  const lines = [...Array(count).keys()];

  test(`${about} is shown`, () => assert.notEqual(pageOf(text).title, 'Cannot be shown'));

  test(`${about}: a line cut`, () => {
    for (const at of lines) assertMessage(changed(text, at, (line) => [line.slice(0, -1)]), at + 1);
  });

  test(`${about}: a line left out`, () => {
    for (const at of lines) assertMessage(changed(text, at, () => []));
  });

  test(`${about}: a line twice`, () => {
    for (const at of lines) assertMessage(changed(text, at, (line) => [line, line]));
  });

  test(`${about}: a letter in place of any byte`, () => {
    for (let i = 0; i < text.length; i += 1) {
      if (text[i] !== 'x') assertMessage(`${text.slice(0, i)}x${text.slice(i + 1)}`, i === 0 ? 1 : undefined);
    }
  });

  test(`${about}: cut off anywhere`, () => {
    for (let i = 0; i < text.length; i += 1) assertMessage(text.slice(0, i));
  });

  test(`${about}: a blank too many in any line`, () => {
    for (const at of lines) assertMessage(changed(text, at, (line) => [line.replace(' ', '  ')]), at + 1);
  });

  test(`${about}: a blank or a digit at the end of any line`, () => {
    for (const at of lines) {
      assertMessage(changed(text, at, (line) => [`${line} `]), at + 1);
      if (!text.startsWith('details')) assertMessage(changed(text, at, (line) => [`${line}0`]), at + 1);
    }
  });

  test(`${about}: line ends CR LF, in all lines and in one`, () => {
    assertMessage(text.replaceAll('\n', '\r\n'), 1);
    assert.match(pageOf(text.replaceAll('\n', '\r\n')).inside, /carriage return/);
    for (const at of lines) assertMessage(changed(text, at, (line) => [`${line}\r`]), at + 1);
  });

  test(`${about}: something after the end`, () => {
    for (const more of ['\n', ' ', 'B           0           0\n', 'verdict\n']) assertMessage(text + more, count + 1);
  });

  test(`${about}: a byte-order mark, and UTF-16`, () => {
    assertMessage(`\uFEFF${text}`, 1);
    assert.match(pageOf(`\uFEFF${text}`).inside, /A byte-order mark stands in front/);
    assertMessage([...text].map((character) => `${character}\0`).join(''), 1);
  });

  test(`${about}: a zero in front of any number`, () => {
    for (const at of lines) {
      for (const number of text.split('\n')[at].matchAll(/ (?=\d)|=(?=\d)/g)) {
        const spelled = (line) => `${line.slice(0, number.index)}${number[0] === '=' ? '=0' : '0'}${line.slice(number.index + 1)}`;
        assertMessage(changed(text, at, (line) => [spelled(line)]), at + 1);
      }
    }
  });
}

test('nothing at all, and other texts', () => {
  assertMessage('', 1);
  assertMessage('\n', 1);
  for (const name of names) assertMessage(`x${sheetOf(name)}`, 1);
  assertMessage('Risky\n', 1);
});

for (const name of names) {
  test(`${name}: of its survey the page says that it is one`, () => {
    for (const text of [surveyOf(name), surveyOf(name).replaceAll('\n', '\r\n')]) {
      assertMessage(text, 1, 'This is a survey. Its text is made by: details text NAME.survey &#62; NAME.details');
    }
  });
}

test('a text that is longer than any', () => {
  assert.equal(pageOf(detailsOf('plain-block')).title, 'Risky');
  const { title, inside } = pageOf('x'.repeat(TEXT_MOST + 1));
  assert.equal(title, 'Cannot be shown');
  assert.ok(inside.endsWith('<p>This is longer than the text of any survey.</p></div>'));
  assertMessage('x'.repeat(TEXT_MOST), 1, 'neither');
});

test('a number by which no survey is refused', () => {
  for (const number of [0, 10, 11, 13, 99]) {
    assertMessage(`E${String(number).padStart(12)}           3\n`, 1, 'No survey is refused by this number.');
    assertMessage(`details version=1\nrefused refusal=${number} line=3\n`, 2, 'No survey is refused by this number.');
  }
});

// A member's line of the details with another number, and where it stands.
function withNumber(name, value, word) {
  const text = detailsOf('cases-worked-example');
  const at = text.split('\n').findIndex((line) => line.startsWith(`${word} `));
  return [changed(text, at, (line) => [line.replace(new RegExp(` ${name}=\\d+`), ` ${name}=${value}`)]), at + 1];
}

test('a number that may not stand there', () => {
  const flags = [['over', 'member'], ['m_dropped', 'member'], ['risky', 'case'], ['by_damage', 'case'], ['risky', 'storey'], ['tilted', 'verdict']];
  for (const [name, word] of flags) assertMessage(...withNumber(name, 2, word));
  for (const value of [0, 6]) assertMessage(...withNumber('class', value, 'member'));
  for (const value of [0, 3]) assertMessage(...withNumber('form', value, 'building'));
  assertMessage(...withNumber('version', 2, 'details'));
  assertMessage(...withNumber('m', '1234567890123456', 'member'));
  assertMessage(...withNumber('allowed_den', 0, 'case'));
  assertMessage(...withNumber('shear', 0, 'case'));
});

test('a number that does not fit the lines about it', () => {
  for (const name of ['storey', 'case']) {
    for (const word of ['member', 'case']) assertMessage(...withNumber(name, 9, word));
  }
  assertMessage(...withNumber('place', 9, 'storey'));
  for (const name of ['place', 'storey', 'case']) assertMessage(...withNumber(name, 9, 'verdict'));
  assertMessage(...withNumber('place', 0, 'verdict'));
  for (const [name, word] of [['count', 'storey'], ['members', 'case'], ['count', 'building']]) assertMessage(withNumber(name, 9, word)[0]);
});

// A text after changes, each of them a part of it and what comes in its place.
function replaced(text, ...changes) {
  for (const [from, to] of changes) {
    assert.ok(text.includes(from), from);
    text = text.replace(from, to);
  }
  return text;
}

test('the number of a storey or of a member a second time', () => {
  const lineOf = (text, start) => text.split('\n').findIndex((line) => line.startsWith(start)) + 1;
  const [sheet, details] = [sheetOf('plain-block'), detailsOf('plain-block')];
  assertMessage(sheet.replace(/^S           2/m, 'S           1'), lineOf(sheet, 'S           2'), 'The number 1 stands a second time.');
  assertMessage(details.replace(/^storey place=2 number=2/m, 'storey place=2 number=1'), lineOf(details, 'storey place=2'), 'The number 1 stands a second time.');
  assertMessage(sheet.replace(/^M           2/m, 'M           1'), 2, 'The number 1 stands a second time.');
  assertMessage(details.replace('storey=1 case=1 number=2', 'storey=1 case=1 number=1'), 6, 'The number 1 stands a second time.');
  const cases = sheetOf('cases-worked-example').replace(/^(M           1) {11}2/m, '$1           1');
  assertMessage(cases, 2, 'The number 1 stands a second time.');
});

test('a verdict that names another storey or case than the first Risky ones', () => {
  const named = detailsOf('cases-worked-example');
  const last = named.split('\n').length - 1;
  const [, number] = named.match(/place=1 storey=(\d+) case=1\n$/);
  assertMessage(replaced(named, [`place=1 storey=${number} case=1\n`, `place=1 storey=${number} case=3\n`]), last, 'The number &#34;case&#34; is 3 where 1 is due.');
  assertMessage(replaced(named, [`place=1 storey=${number} case=1\n`, 'place=0 storey=0 case=0\n']), last, 'The number &#34;place&#34; is 0 where 1 is due.');
  const plain = detailsOf('plain-block');
  const second = replaced(plain, ['place=1 storey=1 case=1\n', 'place=2 storey=2 case=1\n']);
  assertMessage(second, plain.split('\n').length - 1, 'The number &#34;place&#34; is 2 where 1 is due.');
});

test('Risky by one member over, and no member over', () => {
  const text = detailsOf('risky-by-axial-load');
  const none = text.replaceAll('over_m=0 over_rotation=1 over=1', 'over_m=0 over_rotation=0 over=0');
  assert.ok(text.includes('by_share=0 by_one_over=1') && none !== text);
  assertMessage(none, text.split('\n').findIndex((line) => line.includes('by_one_over=1')) + 1, 'The number &#34;by_one_over&#34; is 1 where 0 is due.');
});

test('another member in another case', () => {
  const sheet = sheetOf('cases-worked-example');
  const other = changed(sheet, 3, (line) => [line.replace('           1           2', '           7           2')]);
  assert.notEqual(other, sheet);
  assertMessage(other, 4);
});

test('a message is an error of its own kind', () => assert.throws(() => readText(''), Unreadable));
