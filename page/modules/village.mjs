// A village after a power cut. The compiled `outage` says who is up when. The library makes the same tries, so that each can be drawn, and the page stops where
// the two differ.
import { runOnText } from './host.mjs';
import { lineName } from './lesson.mjs';
import { FONT, INK, textAt } from './shard.mjs';
import { agree, readCall } from './run.mjs';
import { escape, plural, showTime, widthOf, wrap } from './text.mjs';

const MOST_LINES = 200, MOST_TRIES = 1000, MOST_MARKS = 6000;

// The tries of the village's lines, in the order in which they are made: marks { line, key, cost, at, code, why, again, nth }, and for each line how it ends.
export async function runVillage({ outage, library }, lesson, names) {
  const said = await runOnText(outage, lesson.desk.map(line => `${line}\n`).join('')), first = readCall(lesson.desk[0] ?? '');
  if (first?.op !== 's' || library.setUp(first).code !== 0) return { settings: null, told: said.told, marks: [], ends: [], names };
  const ends = [];
  for (let i = 1; i < lesson.desk.length; i++) {
    const call = i <= MOST_LINES ? readCall(lesson.desk[i]) : null, tried = call?.op === 'a';
    ends.push({ line: i + 1, name: lineName(lesson, i + 1), call: tried ? call : null, at: tried ? call.now : 0n, tries: 0, code: 9, last: 0n, open: tried });
  }
  const marks = [];
  for (let next = soonest(ends); next; next = soonest(ends)) {
    const { call, at } = next, reply = library.call({ ...call, now: at });
    next.tries += 1;
    next.last = at;
    next.code = reply.code;
    // A try that the modem's own bucket denies is counted in its place. A modem without a place has no count.
    const denied = reply.code === 1 && (library.turnedAway(call.key).number > 0n ? 'own-bucket' : 'no-room');
    const why = reply.code === 0 ? 'granted' : denied || 'never';
    marks.push({ line: next.line, name: next.name, key: call.key, cost: call.cost, at, why, again: reply.moment, nth: next.tries });
    if (reply.code === 1 && next.tries < MOST_TRIES) next.at = reply.moment;
    else next.open = false;
  }
  said.lines.slice(1).forEach((line, i) => {
    const end = ends[i];
    agree(`village, line ${i + 2}`, line, `${end.line} ${end.code} ${end.last} ${end.tries}`);
  });
  agree('lines of the village', said.lines.length, ends.length + 1);
  return { settings: first, told: said.told, marks, ends, names };
}

// The earliest moment first; of equal moments the lower line.
function soonest(ends) {
  let found = null;
  for (const end of ends) if (end.open && (!found || end.at < found.at)) found = end;
  return found;
}

// The sentences that a trainer wants.
export function villageSentences({ ends, marks, names }) {
  const tried = ends.filter(end => end.call), up = tried.filter(end => end.code === 0), modems = new Set(tried.map(end => end.call.key)).size;
  if (!tried.length) return ['No line of this lesson is a try (the letter a), so no modem comes up.'];
  const word = modems === tried.length ? 'modem' : 'line', said = [], left = ends.length - tried.length;
  const are = left === 1 ? 'is' : 'are';
  if (left) said.push(`${plural(left, 'line')} ${are} not tried here: only lines with the letter a are, ${MOST_LINES} at most.`);
  if (up.length) {
    const last = up.reduce((found, end) => end.last >= found.last ? end : found);
    const begin = tried.reduce((least, end) => end.call.now < least ? end.call.now : least, tried[0].call.now);
    const times = last.tries === 1 ? 'once' : `${last.tries} times`;
    said.push(`${up.length} of ${plural(tried.length, word)} ${tried.length === 1 ? 'is' : 'are'} up after ${showTime(last.last - begin)}. ` +
      `The last one is modem ${names(last.call.key)}. It tried ${times}.`);
  }
  const never = tried.filter(end => end.code === 2).length, still = tried.filter(end => end.code === 1).length,
    other = tried.length - up.length - never - still;
  if (still) said.push(`${plural(still, word)} ${still === 1 ? 'is' : 'are'} not up after ${MOST_TRIES} tries.`);
  if (never) said.push(`${plural(never, word)} can never come up: the cost is more than the burst.`);
  if (other) said.push(`${plural(other, word)} ${other === 1 ? 'is' : 'are'} refused.`);
  const room = marks.filter(mark => mark.why === 'no-room').length, own = marks.filter(mark => mark.why === 'own-bucket').length;
  const tries = marks.length === 1 ? '1 try' : `${marks.length} tries`;
  said.push(`${tries}: ${up.length} granted, ${own} denied by the modem's own bucket, ${room} denied for lack of room.`);
  return said;
}

// What a mark says when it is pointed at.
export function markWords({ name, key, cost, at, why, again, nth }, names) {
  const result = { granted: 'granted', 'own-bucket': `own bucket: again at ${showTime(again)}`, 'no-room': `no room: again at ${showTime(again)}`,
    never: 'never' }[why];
  return `line ${name}: modem ${names(key)} wants ${cost} at ${showTime(at)}, try ${nth}: ${result}`;
}

function mark(x, y, r, why) {
  if (why === 'granted') return `<circle cx="${x}" cy="${y}" r="${r}" fill="${INK.granted}"/>`;
  if (why === 'own-bucket') return `<circle cx="${x}" cy="${y}" r="${r}" fill="#fff" stroke="${INK.debt}" stroke-width="1.2"/>`;
  const d = 2 * r;
  if (why === 'no-room') return `<path d="M${x - r} ${y - r}l${d} ${d}m0 -${d}l-${d} ${d}" stroke="${INK.denied}" stroke-width="1.6" fill="none"/>`;
  return `<rect x="${x - r}" y="${y - r}" width="${2 * r}" height="${2 * r}" fill="${INK.text}"/>`;
}

// The picture: time to the right, one row for each line that is tried.
export function villagePicture(village, { title }) {
  const { marks, names } = village, rows = village.ends.filter(end => end.call), sentences = villageSentences(village).flatMap(text => wrap(text, 110));
  const nameWidth = Math.max(40, ...rows.map(end => widthOf(names(end.call.key), 11))), left = 12 + nameWidth + 14, plot = 780, width = left + plot + 40;
  const row = Math.max(6, Math.min(16, Math.floor(900 / Math.max(rows.length, 1)))), top = 64 + 17 * sentences.length,
    r = Math.max(2, Math.min(4.5, row / 2.6));
  const height = top + rows.length * row + 44, begin = marks.reduce((least, { at }) => at < least ? at : least, marks[0]?.at ?? 0n);
  const end = marks.reduce((most, { at }) => at > most ? at : most, begin), span = Number(end - begin) || 1;
  const xOf = at => Math.round((left + Number(at - begin) / span * plot) * 10) / 10, place = new Map(rows.map((found, i) =>
    [found.line, top + i * row + row / 2])), o = [];
  for (const at of ticks(begin, end)) {
    o.push(`<line x1="${xOf(at)}" y1="${top}" x2="${xOf(at)}" y2="${height - 36}" stroke="#ddd"/>`,
      textAt(xOf(at), height - 18, showTime(at), { size: 12, anchor: 'middle' }));
  }
  const every = Math.ceil(11 / row);
  rows.forEach((found, i) => {
    const y = place.get(found.line);
    o.push(`<line x1="${xOf(found.call.now)}" y1="${y}" x2="${xOf(found.last)}" y2="${y}" stroke="#c4c4c4" stroke-width="0.8"/>`);
    if (i % every === 0) o.push(textAt(left - 10, y + 4, names(found.call.key), { size: 11, anchor: 'end' }));
  });
  marks.slice(0, MOST_MARKS).forEach((found, i) => {
    o.push(`<g data-mark="${i}"><title>${escape(markWords(found, names))}</title>${mark(xOf(found.at), place.get(found.line), r, found.why)}</g>`);
  });
  const legend = [['granted', 'granted'], ['own-bucket', 'own bucket: later'], ['no-room', 'no room: later'], ['never', 'never']]
    .filter(([why]) => why !== 'never' || marks.some(found => found.why === 'never'));
  let x = 18;
  const key = legend.map(([why, text]) => {
    const drawn = mark(x, top - 18, 4.5, why) + textAt(x + 10, top - 14, text);
    x += widthOf(text, 12) + 34;
    return drawn;
  });
  if (marks.length > MOST_MARKS) key.push(textAt(x, top - 14, `the first ${MOST_MARKS} tries are drawn`, { fill: INK.faint }));
  return `<svg xmlns="http://www.w3.org/2000/svg" width="${width}" height="${height}" viewBox="0 0 ${width} ${height}" font-family="${FONT}" role="img">` +
    `<title>${escape(title)}</title><rect width="${width}" height="${height}" fill="#fff"/>${textAt(12, 26, title, { size: 17, bold: true })}` +
    `${sentences.map((text, i) => textAt(12, 46 + 17 * i, text, { size: 13 })).join('')}${key.join('')}\n${o.join('\n')}</svg>\n`;
}

// Round moments, about six of them.
function ticks(begin, end) {
  const aim = (end - begin) / 6n, found = [];
  let step = 1n;
  while (step < aim) step = [2n, 5n, 10n].map(by => step * by).find(each => each >= aim) ?? step * 10n;
  for (let at = (begin + step - 1n) / step * step; at <= end; at += step) found.push(at);
  return found;
}
