// The picture of a shard: who has a place, who is forgotten in debt, what each has and owes. And the words of the store as a table.
import { escape, showTime, widthOf } from './text.mjs';

export const FONT = 'DejaVu Sans, Verdana, Segoe UI, Arial, sans-serif';

// Colours that people who see red and green alike can tell apart; each has a shape and a word beside it.
export const INK = { text: '#1a1a1a', faint: '#5c5c5c', line: '#8a8a8a', place: '#00507a', placeFill: '#e6f1f8', debt: '#8a4b00', debtFill: '#fdf0dc',
  granted: '#00664a', denied: '#a33600', band: '#f3f3ea' };

export function textAt(x, y, text, { size = 12, fill = INK.text, anchor = 'start', bold = false, halo = false } = {}) {
  const more = `${bold ? ' font-weight="bold"' : ''}${halo ? ' paint-order="stroke" stroke="#fff" stroke-width="4"' : ''}`;
  return `<text x="${x}" y="${y}" font-size="${size}" fill="${fill}" text-anchor="${anchor}"${more}>${escape(text)}</text>`;
}

// What stands in the box of a place and of a debt: three short lines each.
export function placeLines(slot, step, { settings, names }) {
  const has = step.has.get(slot.key), full = step.full.get(slot.key);
  return [`modem ${names(slot.key)}`, `has ${has} of ${settings.burst}`, full > step.now ? `all at ${showTime(full)}` : 'has all'];
}

export function debtLines(debt, step, { names, keys }) {
  const key = keys.get(debt.hash);
  return [`modem ${key === undefined ? '?' : names(key)}`, 'forgotten', debt.settles > step.now ? `owes until ${showTime(debt.settles)}` : 'has settled'];
}

export function boxWidth(lines) {
  return Math.max(...lines.map((text, i) => i === 0 ? Math.ceil(widthOf(text, 12) * 1.12) : widthOf(text, 11)), 60) + 14;
}

// A box of three lines. A debt has a dashed frame and stripes, an empty place a dotted frame.
export function box(x, y, width, kind, lines) {
  const look = {
    place: `fill="${INK.placeFill}" stroke="${INK.place}" stroke-width="1.5"`,
    debt: `fill="url(#stripes)" stroke="${INK.debt}" stroke-width="1.5" stroke-dasharray="6 3"`,
    empty: `fill="none" stroke="${INK.line}" stroke-dasharray="1 3"`,
  }[kind];
  const shown = lines.map((text, i) => textAt(x + 7, y + 15 + 14 * i, text, { size: i === 0 ? 12 : 11, bold: i === 0,
    fill: kind === 'empty' ? INK.faint : INK.text }));
  return `<rect x="${x}" y="${y}" width="${width}" height="50" rx="4" ${look}/>${shown.join('')}`;
}

export const STRIPES = '<pattern id="stripes" width="8" height="8" patternUnits="userSpaceOnUse" patternTransform="rotate(45)">' +
  `<rect width="8" height="8" fill="${INK.debtFill}"/><line x1="0" y1="0" x2="0" y2="8" stroke="#f3d3a0" stroke-width="2"/></pattern>`;

// A gauge: so many of so many.
export function gauge(x, y, width, taken, of, colour, label) {
  const part = of ? Math.round(width * taken / of) : 0;
  return `<rect x="${x}" y="${y}" width="${width}" height="9" fill="#fff" stroke="${colour}"/>` +
    `<rect x="${x}" y="${y}" width="${part}" height="9" fill="${colour}"/>` +
    textAt(x + width + 8, y + 9, label, { size: 12 });
}

// The shard after a step, at most `most` places and debts drawn.
export function shardPicture(run, step, most = 24) {
  const index = step.shard ?? 0, shard = step.after.shards[index], { places, slots, debts } = shard, shown = Math.min(places, most);
  const left = Array.from({ length: shown }, (_, i) => slots[i] ? placeLines(slots[i], step, run) : null);
  const right = Array.from({ length: shown }, (_, i) => debts[i] ? debtLines(debts[i], step, run) : null);
  const wide = Math.max(150, ...[...left, ...right].filter(Boolean).map(boxWidth)), x2 = 12 + wide + 24, width = x2 + wide + 12, o = [];
  const away = shard.slots.filter(slot => slot.turnedAway > 0n);
  const shards = step.after.shards.length;
  o.push(textAt(12, 20, shards > 1 ? `Shard ${index + 1} of ${shards}` : 'The shard', { size: 14, bold: true }));
  o.push(textAt(12, 40, `Places: ${slots.length} of ${places}`, { fill: INK.place, bold: true }),
    textAt(x2, 40, `Debts: ${debts.length} of ${places}`, { fill: INK.debt, bold: true }));
  let y = 50;
  for (let i = 0; i < shown; i++, y += 58) {
    o.push(box(12, y, wide, left[i] ? 'place' : 'empty', left[i] ?? ['free place']));
    o.push(box(x2, y, wide, right[i] ? 'debt' : 'empty', right[i] ?? ['no debt']));
  }
  if (places > shown) o.push(textAt(12, y += 14, `and ${places - shown} places more`, { fill: INK.faint }));
  for (const slot of away.slice(0, most)) {
    const times = slot.turnedAway === 1n ? 'once' : `${slot.turnedAway} times`;
    o.push(textAt(12, y += 18, `Modem ${run.names(slot.key)} was turned away ${times}.`, { fill: INK.faint }));
  }
  const height = y + 12;
  return svg(width, height, 'The shard', o.join(''));
}

export function svg(width, height, title, body) {
  return `<svg xmlns="http://www.w3.org/2000/svg" width="${width}" height="${height}" viewBox="0 0 ${width} ${height}" font-family="${FONT}" role="img">` +
    `<title>${escape(title)}</title><defs>${STRIPES}</defs><rect width="${width}" height="${height}" fill="#fff"/>${body}</svg>\n`;
}

// The words of the store, shard by shard, as an HTML table.
export function wordTable({ after }, { names, keys }) {
  const row = (cells, tag = 'td') => `<tr>${cells.map(cell => `<${tag}>${escape(cell)}</${tag}>`).join('')}</tr>`, parts = [];
  parts.push(`<p>The first word is the total of modems with a place: ${after.total}.</p>`);
  after.shards.forEach((shard, i) => {
    parts.push(`<table><caption>Shard ${i + 1}: ${shard.slots.length} of ${shard.places} places; hand ${shard.hand}, sweep ${shard.sweep}</caption>`);
    parts.push(row(['place', 'modem', 'hash', 'shortfall (parts)', 'stamp (ns)', 'mark', 'seen (ms)', 'turned away'], 'th'));
    shard.slots.forEach((slot, p) => parts.push(row([p, names(slot.key), slot.hash, slot.shortfall, slot.stamp, slot.mark, slot.seen, slot.turnedAway])));
    parts.push(`</table><table><caption>Shard ${i + 1}: ${shard.debts.length} of ${shard.places} debts; cursor ${shard.cursor}</caption>`);
    parts.push(row(['debt', 'modem', 'hash', 'settles (ns)'], 'th'));
    shard.debts.forEach((debt, p) => parts.push(row([p, keys.has(debt.hash) ? names(keys.get(debt.hash)) : '?', debt.hash, debt.settles])));
    parts.push('</table>');
  });
  return parts.join('');
}
