// What was read of a sheet or of a details text, written again.
import { page } from './page.mjs';

const { DETAILS_LINES, SHEET_LINES } = page;

function sheetLine(tag, values) {
  return `${tag}${values.map((value) => String(value).padStart(12)).join('')}\n`;
}

export function sheetLines(survey) {
  const line = (tag, record) => sheetLine(tag, [...(survey.cases === 4 ? [record.case] : []), ...SHEET_LINES[tag].map((name) => record[name])]);
  const ofCase = (found) => found.list.map((member) => line('M', member)).join('') + line('S', found);
  const numbered = (storey) => storey.cases.map((found) => ({ ...found, number: storey.number }));
  const storeys = survey.storeys.map((storey) => numbered(storey).map(ofCase).join('')).join('');
  return storeys + sheetLine('B', SHEET_LINES.B.map((name) => survey.verdict[name]));
}

function detailsLine(word, record) {
  return `${word}${DETAILS_LINES[word].map((name) => ` ${name}=${record[name]}`).join('')}\n`;
}

export function detailsLines(survey) {
  const ofCase = (found) => detailsLine('case', found) + found.list.map((member) => detailsLine('member', member)).join('');
  const storeys = survey.storeys.map((storey) => detailsLine('storey', storey) + storey.cases.map(ofCase).join('')).join('');
  return `details version=1\n${detailsLine('building', survey.building)}${storeys}${detailsLine('verdict', survey.verdict)}`;
}
