// What the page shows: the verdict's sentence, members, shares, and nothing that a text does not say.
import assert from 'node:assert/strict';
import { readFileSync } from 'node:fs';
import { join } from 'node:path';
import { test } from 'node:test';
import { accepted, detailsOf, html, page, printed, refused, root, sheetOf } from './page.mjs';

const { readText, pageOf, verdictSentence, memberRow, sharePart, apart, escaped, REFUSALS } = page;

// ---- the verdict's sentence ----

for (const name of accepted) {
  test(`${name}: the sentence is that of the table`, () => {
    const last = printed('table', name).trimEnd().split('\n\n').at(-1).replaceAll('\n', ' ');
    assert.equal(verdictSentence(readText(detailsOf(name))), last);
  });
}

// The sentence of a details text after changes, each a line's word, a name and its number.
function sentence(name, ...changes) {
  let text = detailsOf(name);
  for (const [word, number, value] of changes) {
    text = text.replace(new RegExp(`^(${word} .*\\b${number}=)\\d+`, 'm'), `$1${value}`);
  }
  return verdictSentence(readText(text));
}

const NO_STOREY = [['case', 'by_share', 0], ['case', 'risky', 0], ['storey', 'risky', 0]];
const NOT_RISKY = [...NO_STOREY, ['verdict', 'risky', 0], ['verdict', 'place', 0], ['verdict', 'storey', 0], ['verdict', 'case', 0]];
const TILTED = [['building', 'tilt2', 26000], ['verdict', 'tilted', 1]];
const SHARE = 'the members over carry 270.0 kN of the storey shear of 900.0 kN, 0.3000 of it, more than the allowed share of 0.2466';
const ONE_OVER = 'a member is over while the mean n_D of 0.7000 is above 0.65';
const DAMAGE = 'the damage of its members reaches the limit of 4.2.5.5';

test('a sentence for each reason and for several', () => {
  const [by_one_over, by_damage] = [['case', 'by_one_over', 1], ['case', 'by_damage', 1]];
  const [no_share, mean] = [['case', 'by_share', 0], ['case', 'axial_total', 280000]];
  assert.equal(sentence('plain-block'), `Risky: storey 1 is Risky: ${SHARE}.`);
  assert.equal(sentence('plain-block', no_share, mean, by_one_over), `Risky: storey 1 is Risky: ${ONE_OVER}.`);
  assert.equal(sentence('plain-block', no_share, by_damage), `Risky: storey 1 is Risky: ${DAMAGE}.`);
  assert.equal(sentence('plain-block', mean, by_one_over, by_damage), `Risky: storey 1 is Risky: ${SHARE}; ${ONE_OVER}; ${DAMAGE}.`);
});

test('a sentence for the tilt, alone and beside a storey, and for neither', () => {
  const tilt = 'the larger of the tilts of 0.0012 and 0.026 rad is above 0.025 rad.';
  assert.equal(sentence('plain-block', ...NOT_RISKY, ...TILTED, ['verdict', 'risky', 1]), `Risky: ${tilt}`);
  assert.equal(sentence('plain-block', ...TILTED), `Risky: storey 1 is Risky: ${SHARE}. And ${tilt}`);
  assert.equal(sentence('plain-block', ...NOT_RISKY), 'Not Risky: no storey is Risky, and the larger of the tilts of 0.0012 and 0.0008 rad is not above 0.025 rad.');
});

test('the case is named in four load cases', () => {
  assert.match(sentence('cases-risky-in-case-3'), /^Risky: storey 1 is Risky in case 3: the members over carry 255\.0 kN of /);
});

test('of a sheet the sentence tells what it marks', () => {
  const told = (name) => verdictSentence(readText(sheetOf(name)));
  assert.equal(told('plain-block'), 'Risky: storey 1 is Risky.');
  assert.equal(told('cases-risky-in-case-3'), 'Risky: storey 1 is Risky in case 3.');
  assert.equal(told('walls'), 'Not Risky: no storey is Risky, and the larger of the two tilts is not above 0.025 rad.');
  const tilted = readText(sheetOf('walls').replace(/B.*\n$/, 'B           1           1\n'));
  assert.equal(verdictSentence(tilted), 'Risky: the larger of the two tilts is above 0.025 rad.');
});

for (const name of refused) {
  test(`${name}: the refusal is told, with its line`, () => {
    const [, refusal, line] = sheetOf(name).match(/^E +(\d+) +(\d+)\n$/);
    const { title, inside } = pageOf(sheetOf(name));
    assert.equal(title, 'Refused');
    assert.ok(inside.includes(`Refusal ${refusal}${line === '0' ? '' : `, at line ${line} of the survey`}: ${REFUSALS[refusal]}.`), inside);
    assert.deepEqual(pageOf(detailsOf(name)), { title, inside });
  });
}

test('every refusal of a file or a sheet has its words', () => {
  const listed = [...readFileSync(join(root, 'docs/REFUSALS.md'), 'utf8').matchAll(/^\| (\d+) \|/gm)].map(([, number]) => number);
  assert.ok(listed.length >= 11);
  const elsewhere = ['11', '14']; // of a file written, and of a site
  assert.deepEqual(Object.keys(REFUSALS), listed.filter((number) => !elsewhere.includes(number)));
});

// ---- members ----

const members = (survey) => survey.storeys.flatMap((storey) => storey.cases.flatMap((found) => found.list));

// A number divided by its scale, with one decimal at least.
function scaled(number, scale) {
  const text = String(number / scale);
  return text.includes('.') ? text : `${text}.0`;
}

const more = (number) => (number === 9999999 ? ' or more' : '');
const cells = (row) => row.match(/<t[hd][^]*?<\/t[hd]>/g);

for (const name of accepted) {
  test(`${name}: each member's demands, limits and marks are shown`, () => {
    const list = members(readText(detailsOf(name)));
    for (const m of list) {
      const [head, first, second, axial] = cells(memberRow(m));
      assert.ok(first.includes(`${scaled(m.m, 1e5)}${more(m.m)} of ${scaled(m.m_limit, 1e5)}`), first);
      assert.ok(second.includes(`${scaled(m.rotation, 1e6)} of ${scaled(m.rotation_limit, 1e6)} rad`), second);
      assert.equal(axial, `<td>${scaled(m.nd, 1e5)}${more(m.nd)}</td>`);
      assert.equal(head.includes('<span class="mark">over</span>'), m.over === 1);
      assert.equal(first.includes(`over by ${scaled(m.m - m.m_limit, 1e5)}`), m.over_m === 1);
      assert.equal(second.includes(`over by ${scaled(m.rotation - m.rotation_limit, 1e6)}`), m.over_rotation === 1);
      assert.equal(first.includes('test of m dropped'), m.m_dropped === 1);
      assert.equal(/class="past"/.test(first), m.over_m === 1);
      assert.equal(/class="past"/.test(second), m.over_rotation === 1);
    }
    const rows = pageOf(detailsOf(name)).inside;
    assert.ok(list.every((m) => rows.includes(memberRow(m))), 'every row is on the page');
  });

  test(`${name}: of a sheet the same members, and what it does not say is not shown`, () => {
    const list = members(readText(sheetOf(name)));
    const { inside } = pageOf(sheetOf(name));
    for (const m of list) {
      const [head, first, second] = cells(memberRow(m));
      assert.equal(cells(memberRow(m)).length, 3);
      assert.ok(first.includes(`${scaled(m.m, 1e5)}${more(m.m)} of ${scaled(m.m_limit, 1e5)}`), first);
      assert.ok(second.includes(`${scaled(m.rotation, 1e6)} of ${scaled(m.rotation_limit, 1e6)} rad`), second);
      assert.equal(head.includes('<span class="mark">over</span>'), m.over === 1);
      assert.ok(inside.includes(memberRow(m)));
    }
    assert.ok(inside.includes('This is a sheet alone'));
    for (const told of ['Allowed share', '0.40 condition', 'by the share', 'by one member over', 'by damage', 'over by', 'dropped</']) {
      assert.ok(!inside.includes(told), told);
    }
    assert.ok(!pageOf(detailsOf(name)).inside.includes('This is a sheet alone'));
  });
}

// The bars of a row: for each the parts in their order, class, place and width.
function bars(row) {
  const parts = (svg) => [...svg.matchAll(/<rect class="(\w+)" x="([\d.]+)" y="[\d.]+" width="([\d.]+)"/g)].map(([, name, x, width]) => [name, Number(x), Number(width)]);
  return row.match(/<svg[^]*?<\/svg>/g).map(parts);
}

// What a bar of 200 with the limit at 120 has of a demand; widths to a tenth.
function parts(demand, limit, past) {
  const end = Math.min(200, (120 * demand) / limit);
  const drawn = [['track', 0, 200], ['within', 0, Math.min(end, 120)], [past, 120, end - 120]];
  return drawn.filter(([, , width]) => width > 0).map(([name, x, width]) => [name, x, Number(width.toFixed(1))]);
}

for (const name of accepted) {
  test(`${name}: the bars are as long as the demands are of their limits`, () => {
    for (const m of members(readText(detailsOf(name))).filter((member) => member.rotation_limit > 0)) {
      const due = [parts(m.m, m.m_limit, m.over_m ? 'past' : 'passed'), parts(m.rotation, m.rotation_limit, m.over_rotation ? 'past' : 'passed')];
      assert.deepEqual(bars(memberRow(m)), due);
      assert.equal(/class="cut"/.test(memberRow(m)), 120 * m.m > 200 * m.m_limit || 120 * m.rotation > 200 * m.rotation_limit);
    }
  });
}

test('the bar of a share is P of W, its limit the allowed share', () => {
  const drawn = (storey) => bars(sharePart(readText(detailsOf('plain-block')).storeys[storey].cases[0]))[0];
  assert.deepEqual(drawn(0), [['track', 0, 200], ['within', 0, 49.3], ['past', 49.3, 10.7]]);
  assert.deepEqual(drawn(1), [['track', 0, 200], ['within', 0, 40.5]]);
});

test('a wall past the limit of a dropped test is not shown as over', () => {
  const wall = (survey) => survey.storeys[0].cases[0].list[1];
  const [told, alone] = [wall(readText(detailsOf('walls'))), wall(readText(sheetOf('walls')))];
  for (const row of [memberRow(told), memberRow(alone)]) {
    assert.ok(row.includes('class="passed"') && !row.includes('class="past"') && !row.includes('>over<'), row);
  }
  assert.ok(memberRow(alone).includes('<span class="aside">past by 0.84885</span>'));
});

// The page judges nothing: no demand is held against its limit.
test('over and the reasons are the text\'s, whatever its other numbers are', () => {
  const text = detailsOf('plain-block');
  const row = (from, to) => memberRow(readText(text.replace(from, to)).storeys[0].cases[0].list[1]);
  assert.ok(!row('over_m=1 over_rotation=0 over=1', 'over_m=0 over_rotation=0 over=0').includes('over by'));
  const within = row('m=260318', 'm=251406');
  assert.ok(within.includes('<span class="mark">over</span>') && within.includes('2.51406 of 2.51411<strong class="by">over</strong>'), within);
  assert.equal(sentence('plain-block', ['case', 'over_shear', 0]), `Risky: storey 1 is Risky: ${SHARE.replace('270.0', '0.0').replace('0.3000', '0.0000')}.`);
  assert.equal(sentence('walls', ['verdict', 'tilted', 1], ['verdict', 'risky', 1]), 'Risky: the larger of the tilts of 0.0004 and 0.0003 rad is above 0.025 rad.');
});

test('a demand at the most that is counted is told as that or more', () => {
  const text = detailsOf('plain-block').replace(/m=260318/, 'm=9999999');
  const row = memberRow(readText(text).storeys[0].cases[0].list[1]);
  assert.ok(row.includes('99.99999 or more of 2.51411') && row.includes('over by 97.48588 or more'), row);
  assert.ok(row.includes('class="cut"'));
});

test('a limit of 0', () => {
  const row = (rotation) => memberRow(readText(detailsOf('plain-block').replace(/rotation=8700 rotation_limit=15227/, `rotation=${rotation} rotation_limit=0`)).storeys[0].cases[0].list[0]);
  assert.ok(row(5).includes('0.000005 of 0.0 rad') && row(5).includes('class="cut"'));
  assert.ok(row(0).includes('0.0 of 0.0 rad') && !row(0).includes('class="cut"'));
  assert.ok(!/NaN|Infinity/.test(row(5) + row(0)));
});

// ---- storeys ----

test('a storey\'s share, total, mean and condition', () => {
  const part = sharePart(readText(detailsOf('plain-block')).storeys[0].cases[0]);
  for (const pair of [['P / W', '270.0 kN / 900.0 kN = 0.3000'], ['Allowed share', '0.2466'], ['Σ', '1.05'], ['c', '4'], ['mean n<sub>D</sub>', '0.2625'],
    ['0.40 condition', 'not met']]) {
    assert.ok(part.includes(`<dt>${pair[0]}</dt><dd>${pair[1]}</dd>`), pair[0]);
  }
  assert.ok(part.includes('class="past"'));
  assert.ok(!sharePart(readText(detailsOf('plain-block')).storeys[1].cases[0]).includes('class="past"'));
});

test('quotients are written with as many decimals as it takes till they differ', () => {
  assert.deepEqual(apart([2700, 9000], [5425000, 22000000]), ['0.3000', '0.2466']);
  assert.deepEqual(apart([35001, 100000], [7, 20]), ['0.35001', '0.35000']);
  assert.deepEqual(apart([7, 20], [35, 100]), ['0.3500', '0.3500']);
  assert.deepEqual(apart([1, 9999999], [0, 1]), ['0.0000001', '0.0000000']);
  assert.deepEqual(apart([3333333, 9999999], [366666667, 1100000000]), ['0.333333333', '0.333333334']);
  assert.deepEqual(apart([99995, 100000], [0, 1]), ['1.0000', '0.0000']);
});

// ---- the page itself ----

test('the page\'s title has the verdict', () => {
  assert.equal(pageOf(detailsOf('plain-block')).title, 'Risky');
  assert.equal(pageOf(sheetOf('walls')).title, 'Not Risky');
});

test('what comes from a file is escaped', () => {
  assert.equal(escaped('<b a="1">\'&'), '&#60;b a=&#34;1&#34;&#62;&#39;&#38;');
  const { inside } = pageOf('details <img src=x onerror=alert(1)>\n');
  assert.ok(inside.includes('&#60;img src=x onerror=alert(1)&#62;') && !inside.includes('<img'));
});

test('the page fetches nothing', () => {
  assert.match(html, /<html lang="en">/);
  assert.match(html, /default-src 'none'/);
  assert.ok(!/https?:|@import|<link|<img|\ssrc=|fetch\(|XMLHttpRequest|import\(/.test(html));
});
