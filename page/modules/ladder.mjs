// The ladder diagram: modems on the left, the server, time downwards. A grant is an arrow with its return; a denial is an arrow without one.
import { FONT, INK, STRIPES, box, boxWidth, debtLines, gauge, placeLines, textAt } from './shard.mjs';
import { STRONG, sentence } from './story.mjs';
import { escape, plural, showTime, widthOf, wrap } from './text.mjs';

// Where the modems would be wider than this, they share one line, and each arrow has its modem's name.
const WIDEST = 430, MOST_BOXES = 4;

// What a call asks for.
export function question({ op, cost, maxWait }) {
  return { a: plural(cost ?? 0, 'request'), p: `look: ${plural(cost ?? 0, 'request')}?`,
    r: `${plural(cost ?? 0, 'request')} within ${showTime(maxWait ?? 0n)}?`,
    f: `${cost} not used`, d: 'forget me' }[op];
}

// The words at an answer. The second line of a denial is the moment.
export function answerLines({ call: { op }, answer: { code, wait, moment } }) {
  if (code === 0 && op === 'p') return ['would be granted'];
  if (code === 0 && (op === 'f' || op === 'd')) return ['done'];
  if (code === 0) return [wait > 0n ? `granted, usable at ${showTime(moment)}` : 'granted'];
  if (code === 1) return [`not now: wait ${showTime(wait)}`, `ask again at ${showTime(moment)}`];
  if (code === 2) return ['never'];
  if (code === 3) return [op === 'r' ? 'no reservation' : 'not known'];
  return [`refused (code ${code})`];
}

// Where everything stands. The columns are those of the whole run, so that they stay where they are from step to step. A narrow picture, for a phone, has one
// line for all modems, and the shard below the arrows.
function planOf(run, narrow) {
  const steps = run.steps.filter(step => step.call && step.call.key !== undefined && step.after), { names, settings } = run;
  const keys = [...new Set(steps.map(step => step.call.key))], nameWidth = Math.max(0, ...keys.map(key => widthOf(names(key), 13) + 22));
  const shared = narrow || keys.length * (nameWidth + 12) > WIDEST, column = shared ? 84 : Math.max(nameWidth, 50) + 12;
  const timeWidth = Math.max(50, ...steps.map(step => widthOf(showTime(step.now), 13) * 1.1 + 10)), x0 = narrow ? 40 : 12 + Math.ceil(timeWidth) + 40;
  const texts = steps.flatMap(step => [question(step.call), ...answerLines(step)]), named = shared ? nameWidth : 0;
  const asked = Math.max(110, ...texts.map(text => widthOf(text, 12) + 6), ...steps.map(step => widthOf(question(step.call), 12) + named + 6));
  const xs = x0 + (shared ? 1 : keys.length) * column + asked + 14, xb = narrow ? 12 : xs + 48, aim = narrow ? 366 : 990;
  const places = settings ? run.steps[0].after.shards[0].places : 1, boxed = places <= MOST_BOXES;
  const lines = steps.flatMap(step => step.after.shards.flatMap(shard =>
    [...shard.slots.map(slot => placeLines(slot, step, run)), ...shard.debts.map(debt => debtLines(debt, step, run))]));
  const wide = Math.max(96, ...lines.map(boxWidth)), most = Math.max(34, Math.min(62, Math.floor((aim - xb - 22) / 6.7)));
  const spots = boxed ? spotsOf(places, wide, aim - xb) : { places: [], debts: [], width: 260, height: 42 };
  const width = Math.ceil(Math.max(xb + most * 6.7 + 22, xb + spots.width + 10, xs + 46));
  const xOf = key => x0 + (shared ? column / 2 - 6 : keys.indexOf(key) * column + column / 2 - 6);
  return { steps, keys, names, settings, narrow, shared, column, x0, xs, xb, places, boxed, wide, most, spots, width, xOf, run };
}

// The spots of the boxes: the places in a row, the debts behind them, or below them where there is no room.
function spotsOf(places, wide, room) {
  const step = wide + 6, row = Math.max(1, Math.min(places, Math.floor((room + 6) / step))), rows = Math.ceil(places / row),
    beside = rows === 1 && 2 * places * step + 8 <= room;
  const at = (i, x, y) => ({ x: x + i % row * step, y: y + Math.floor(i / row) * 56 }), each = Array.from({ length: places }, (_, i) => i);
  return {
    places: each.map(i => at(i, 0, 0)), debts: each.map(i => beside ? at(i, places * step + 8, 0) : at(i, 0, rows * 56)), beside,
    width: beside ? 2 * places * step + 8 : row * step, height: (beside ? rows : 2 * rows) * 56,
  };
}

// The picture of a run up to a step. Of a long run the last `most` lines are drawn.
export function ladder(run, { title, upTo = run.steps.length, most = 150, narrow = false }) {
  const plan = planOf(run, narrow), all = plan.steps.filter(step => step.number <= upTo), steps = all.slice(-most), { width } = plan, rows = [], bands = [];
  let y = 96, last = null;
  if (all.length > steps.length) {
    rows.push(textAt(12, y + 4, `The first ${all.length - steps.length} lines are not drawn.`, { fill: INK.faint }));
    y += 20;
  }
  for (const step of steps) {
    const { drawn, end } = rowOf(step, plan, y, last);
    if (step.number === upTo) bands.push(`<rect x="4" y="${y + 2}" width="${width - 8}" height="${end - y - 4}" fill="${INK.band}"/>`);
    rows.push(`<g data-step="${step.number}">${drawn}</g>`);
    last = step.now;
    y = end;
  }
  const height = y + 12;
  return `<svg xmlns="http://www.w3.org/2000/svg" width="${width}" height="${height}" viewBox="0 0 ${width} ${height}" font-family="${FONT}" role="img">` +
    `<title>${escape(title)}</title><defs>${STRIPES}${arrowHead('ask', INK.text)}${arrowHead('grant', INK.granted)}</defs>` +
    `<rect width="${width}" height="${height}" fill="#fff"/>${textAt(12, 26, title, { size: 17, bold: true })}${bands.join('')}` +
    `${headOf(plan, height)}\n${rows.join('\n')}</svg>\n`;
}

function arrowHead(id, colour) {
  return `<marker id="${id}" viewBox="0 0 10 10" refX="10" refY="5" markerWidth="11" markerHeight="11" markerUnits="userSpaceOnUse" orient="auto">` +
    `<path d="M0 0L10 5L0 10z" fill="${colour}"/></marker>`;
}

// The modems, the server and what the columns are, and the lines that go down from them.
function headOf({ keys, names, settings, narrow, shared, column, x0, xs, xb, xOf, places, boxed, wide, spots }, height) {
  const lives = [...(shared ? [[xOf(keys[0]), 'modems']] : keys.map(key => [xOf(key), names(key)])), [xs, 'server']], o = [];
  lives.forEach(([x, name], i) => {
    const server = i === lives.length - 1, w = server ? 72 : column - 12;
    if (!narrow) o.push(`<line x1="${x}" y1="78" x2="${x}" y2="${height - 8}" stroke="${INK.line}" stroke-width="1.5"/>`);
    o.push(`<rect x="${x - w / 2}" y="54" width="${w}" height="24" rx="${server ? 0 : 12}" fill="${server ? INK.text : INK.place}"/>`);
    o.push(textAt(x, 71, name, { size: 13, fill: '#fff', anchor: 'middle' }));
  });
  const each = settings?.period === 1000000000n ? 'a second' : `each ${showTime(settings?.period ?? 0n)}`;
  const rate = settings ? `${plural(settings.amount, 'request')} ${each}, at most ${settings.burst} at once` : '';
  o.push(textAt(xb, 46, rate, { fill: INK.faint }));
  if (narrow) return o.join('');
  o.push(textAt(12, 71, 'time', { size: 11, fill: INK.faint }));
  if (keys.length && !shared) o.push(textAt(x0, 46, keys.length === 1 ? 'modem' : 'modems', { size: 11, fill: INK.faint }));
  const debts = { fill: INK.debt, bold: true }, label = places === 1 ? 'the only place' : boxed ? `${places} places` : 'the shard';
  o.push(textAt(xb, 71, label, { fill: INK.place, bold: true }));
  if (boxed) o.push(textAt(spots.beside ? xb + places * (wide + 6) + 8 : xb + widthOf(label, 12) * 1.12 + 8, 71, spots.beside ? 'debts' : 'and debts below',
    debts));
  return o.join('');
}

// One line of the lesson: the time, the arrows, the shard after it, and the sentences.
function rowOf(step, plan, top, last) {
  const { call, now, events } = step, { narrow, x0, xs, xb, xOf, shared, names, width, most } = plan, o = [];
  let y = top;
  if (last !== null && now !== last) {
    const back = now < last, fill = back ? INK.denied : INK.faint;
    o.push(`<line x1="12" y1="${y + 2}" x2="${width - 12}" y2="${y + 2}" stroke="${fill}" stroke-dasharray="${back ? '8 4' : '2 5'}"/>`);
    o.push(textAt(12, y + 18, back ? `clock set back by ${showTime(last - now)}` : `${showTime(now - last)} later`,
      { size: 11, fill, bold: back, halo: true }));
    y += 26;
  }
  if (now !== last) {
    o.push(textAt(12, y + (narrow ? 14 : 26), showTime(now), { size: 13, bold: true, halo: true }));
    if (narrow) y += 14;
  }
  const head = y;
  if (narrow) {
    for (const x of [xOf(call.key), xs]) o.push(`<line x1="${x}" y1="${y + 4}" x2="${x}" y2="${y + 62}" stroke="${INK.line}" stroke-width="1.5"/>`);
  }
  o.push(textAt(x0 - 8, y + 26, step.name, { size: 11, fill: INK.faint, anchor: 'end' }));
  o.push(arrows(step, { x: xOf(call.key), xs, y, shared, name: names(call.key) }));
  if (narrow) y += 66;
  o.push(shardAt(step, plan, y + 4));
  y += (hasDebts(step, plan) ? plan.spots.height : plan.spots.places.at(-1).y + 72) + 4;
  if (step.after.shards.length > 1) {
    y += 14;
    o.push(textAt(xb, y, `shard ${(step.shard ?? 0) + 1} of ${step.after.shards.length}`, { size: 11, fill: INK.faint }));
  }
  for (const event of events) {
    const strong = STRONG.has(event.kind), fill = strong ? INK.denied : INK.text;
    wrap(sentence(event, names), most).forEach((text, i) => {
      y += 16;
      if (i === 0) o.push(`<path d="M${xb + 1} ${y - 9}l7 5l-7 5z" fill="${strong ? fill : '#fff'}" stroke="${fill}"/>`);
      o.push(textAt(xb + 14, y, text, { fill }));
    });
  }
  return { drawn: o.join(''), end: Math.max(y + 14, head + 66) };
}

// Where the debts are below the places and there are none, a line of text is enough.
function hasDebts(step, { boxed, spots }) {
  return !boxed || spots.beside || step.after.shards[step.shard ?? 0].debts.length > 0;
}

// The shard after a step: a box for each place and each debt, or two gauges where there are many.
function shardAt(step, plan, y) {
  const { xb, wide, boxed, spots, run } = plan;
  const { slots, debts, places } = step.after.shards[step.shard ?? 0];
  if (!boxed) {
    return gauge(xb, y + 6, 120, slots.length, places, INK.place, `${slots.length} of ${places} places taken`) +
      gauge(xb, y + 22, 120, debts.length, places, INK.debt, `${debts.length} of ${places} debts kept`);
  }
  const place = ({ x, y: down }, i) => slots[i] ? box(xb + x, y + down, wide, 'place', placeLines(slots[i], step, run))
    : box(xb + x, y + down, wide, 'empty', ['free place']);
  const debt = ({ x, y: down }, i) => debts[i] ? box(xb + x, y + down, wide, 'debt', debtLines(debts[i], step, run))
    : box(xb + x, y + down, wide, 'empty', ['no debt']);
  const below = hasDebts(step, plan) ? spots.debts.map(debt).join('') : textAt(xb + 7, y + spots.debts[0].y + 12, 'no debts', { size: 11, fill: INK.faint });
  return spots.places.map(place).join('') + below;
}

// The arrow of a question, and that of a grant. A denial has none: a cross at the server, and the moment at which to ask again.
function arrows(step, { x, xs, y, shared, name }) {
  const { call, answer } = step, ask = y + 22, back = y + 46, dashes = call.op === 'p' ? ' stroke-dasharray="6 4"' : '', granted = answer.code === 0, o = [];
  o.push(`<line x1="${x}" y1="${ask}" x2="${xs - (granted ? 1 : 9)}" y2="${ask}" stroke="${INK.text}" stroke-width="1.5"${dashes} marker-end="url(#ask)"/>`);
  o.push(`<circle cx="${x}" cy="${ask}" r="4" fill="${INK.text}"/>`);
  if (shared) o.push(textAt(x + 8, ask - 7, name, { size: 12, bold: true, halo: true }));
  o.push(textAt(xs - 14, ask - 7, question(call), { anchor: 'end', halo: true }));
  const words = answerLines(step), colour = granted ? INK.granted : INK.denied;
  if (granted) {
    o.push(`<line x1="${xs}" y1="${back}" x2="${x + 2}" y2="${back}" stroke="${colour}" stroke-width="2.5"${dashes} marker-end="url(#grant)"/>`);
    o.push(textAt(xs - 14, back - 6, words[0], { anchor: 'end', fill: colour, bold: true, halo: true }));
  } else {
    o.push(`<path d="M${xs - 7} ${ask - 7}l14 14m0 -14l-14 14" stroke="${colour}" stroke-width="3.5" fill="none"/>`);
    words.forEach((text, i) => o.push(textAt(xs - 14, ask + 16 + 15 * i, text, { anchor: 'end', fill: colour, bold: i === 0, halo: true })));
  }
  return o.join('');
}
