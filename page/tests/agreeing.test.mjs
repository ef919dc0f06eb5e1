// A text must agree with itself: what the page shows or says of a text in which one number of 0 or 1 is the other.
import assert from 'node:assert/strict';
import { test } from 'node:test';
import { accepted, detailsOf, page, sheetOf } from './page.mjs';
import { detailsLines, sheetLines } from './written.mjs';

const { readText, pageOf } = page;

const FLAGS = {
  details: {
    storey: ['risky'],
    case: ['walls_suffice', 'by_share', 'by_one_over', 'by_damage', 'risky'],
    member: ['m_dropped', 'over_m', 'over_rotation', 'over'],
    verdict: ['tilted', 'risky'],
  },
  sheet: { storey: [], case: ['risky'], member: ['over'], verdict: ['tilted', 'risky'] },
};

// The records of a survey that was read, each with its kind.
function records({ storeys, verdict }) {
  const cases = storeys.flatMap((storey) => storey.cases);
  const of = (kind, list) => list.map((record) => [kind, record]);
  return [...of('storey', storeys), ...of('case', cases), ...of('member', cases.flatMap((found) => found.list)), ...of('verdict', [verdict])];
}

// ---- whether it agrees ----

const memberAgrees = (m) => (m.over === 1) === (m.over_m === 1 || m.over_rotation === 1) && !(m.m_dropped && m.over_m);

function caseAgrees(found) {
  const reason = found.by_share || found.by_one_over || found.by_damage;
  return found.risky === reason && (!found.by_one_over || found.list.some((m) => m.over)) && found.list.every(memberAgrees);
}

const storeyAgrees = (storey) => (storey.risky === 1) === storey.cases.some((found) => found.risky) && storey.cases.every(caseAgrees);

function verdictAgrees({ kind, storeys, verdict }) {
  const named = storeys.flatMap((storey, i) => storey.cases.filter((found) => found.risky).map((found) => [i + 1, storey.number, found.case]));
  const first = kind === 'details' && named.length > 0 ? named[0] : [0, 0, 0];
  const told = kind === 'details' ? [verdict.place, verdict.storey, verdict.case] : [0, 0, 0];
  return (verdict.risky === 1) === (verdict.tilted === 1 || named.length > 0) && told.join() === first.join();
}

const agrees = (survey) => verdictAgrees(survey) && (survey.kind === 'sheet' || survey.storeys.every(storeyAgrees));

// ---- what it says, and what the page shows ----

function memberSays(m) {
  const told = m.over_m !== undefined;
  return [m.over === 1, told && m.over_m === 1, told && m.m_dropped === 1, told && m.over_rotation === 1].join();
}

function caseSays(found) {
  const words = [['by_share', 'by the share'], ['by_one_over', 'by one member over'], ['by_damage', 'by damage']];
  const named = words.filter(([name]) => found[name]).map(([, word]) => word).join(', ');
  return found.risky ? `Risky ${named}`.trim() : 'not Risky';
}

function saying({ storeys, verdict }) {
  const cases = storeys.flatMap((storey) => storey.cases);
  return {
    verdict: verdict.risky ? 'Risky' : 'Not Risky',
    tilt: verdict.tilted ? 'is above' : verdict.risky ? '' : 'is not above',
    storeys: storeys.map((storey) => `${storey.number}: ${storey.cases.some((found) => found.risky) ? 'Risky' : 'not Risky'}`),
    cases: cases.map(caseSays),
    conditions: cases.filter((found) => found.walls_suffice !== undefined).map((found) => (found.walls_suffice ? 'met' : 'not met')),
    members: cases.flatMap((found) => found.list.map(memberSays)),
  };
}

const all = (inside, pattern) => [...inside.matchAll(pattern)].map((match) => match.slice(1).join(': '));

function memberShown(row) {
  const [head, first, second] = row.match(/<t[hd][^]*?<\/t[hd]>/g);
  const over = (cell) => cell.includes('<strong class="by">over');
  return [head.includes('<span class="mark">over</span>'), over(first), first.includes('test of m dropped'), over(second)].join();
}

function shown(inside) {
  return {
    verdict: all(inside, /<h1>(.*?)<\/h1>/g).join(),
    tilt: all(inside, /(is above|is not above) 0\.025 rad/g).join(),
    storeys: all(inside, /<h2>Storey (\d+): (.*?)<\/h2>/g),
    cases: all(inside, /<dt>Storey<\/dt><dd>(.*?)<\/dd>/g).map((words) => words.replace(/<.*?>/g, '')),
    conditions: all(inside, /<dt>0\.40 condition<\/dt><dd>(.*?)<\/dd>/g),
    members: inside.match(/<tr[^>]*><th scope="row">\d[^]*?<\/tr>/g).map(memberShown),
  };
}

// ---- one number of 0 or 1 the other ----

// The line, counted from 1, in which two texts differ.
function differing(one, two) {
  const lines = two.split('\n');
  return one.split('\n').findIndex((line, i) => line !== lines[i]) + 1;
}

// The numbers that were turned in a text that still agrees with itself: kind of text, kind of line, name.
const agreeingFlags = new Set();

// Turns a number of a survey that was read: the page must show what the text says then, or name the line where it does not agree.
function turned(survey, text, write, kind, record, name) {
  record[name] = 1 - record[name];
  const other = write(survey);
  const { title, inside } = pageOf(other);
  const line = differing(text, other);
  if (agrees(survey)) {
    agreeingFlags.add(`${survey.kind} ${kind} ${name}`);
    assert.deepEqual(shown(inside), saying(survey), `line ${line}: ${name}`);
  } else {
    const due = survey.kind === 'sheet' ? other.split('\n').length - 1 : line; // in a sheet, the line B
    assert.equal(title, 'Cannot be shown', `line ${line}: ${name}`);
    assert.match(inside, new RegExp(`<p>Line ${due}: The number &#34;\\w+&#34; is [01] where [01] is due\\.</p>`));
  }
  record[name] = 1 - record[name];
}

for (const name of accepted) {
  for (const [text, write] of [[sheetOf(name), sheetLines], [detailsOf(name), detailsLines]]) {
    const survey = readText(text);
    test(`${name}: each number of 0 or 1 of its ${survey.kind} the other`, () => {
      assert.ok(agrees(survey));
      assert.deepEqual(shown(pageOf(text).inside), saying(survey));
      for (const [kind, record] of records(survey)) {
        for (const flag of FLAGS[survey.kind][kind]) turned(survey, text, write, kind, record, flag);
      }
    });
  }
}

// Each of the others stands in the text a second time, in other words: whether a storey, a case of a details text or the building is Risky, and
// whether a member of a details text is over.
test('what can be the other in a text that agrees with itself', () => {
  const details = ['case by_damage', 'case by_one_over', 'case by_share', 'case walls_suffice', 'member m_dropped', 'member over_m', 'member over_rotation', 'verdict tilted'];
  const sheet = ['case risky', 'member over', 'verdict tilted'];
  assert.deepEqual([...agreeingFlags].sort(), [...details.map((it) => `details ${it}`), ...sheet.map((it) => `sheet ${it}`)]);
});
