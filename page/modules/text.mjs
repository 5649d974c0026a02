// Numbers, times and names as people read them. Nothing here decides a number.

// Text for XML, between tags or between double quotes: the characters that would be read as marks are written out.
export function escape(text) {
  const marks = { '&': '&amp;', '<': '&lt;', '>': '&gt;', '"': '&quot;' };
  return String(text).replace(/[&<>"]/g, mark => marks[mark]);
}

export function plural(count, word) {
  return `${count} ${word}${BigInt(count) === 1n ? '' : 's'}`;
}

// A fraction of BigInts as a decimal with at most `digits` digits, without zeros at the end; cut, not rounded.
export function decimal(above, below, digits) {
  const whole = above / below;
  const rest = String((above % below) * 10n ** BigInt(digits) / below).padStart(digits, '0').replace(/0+$/, '');
  return rest ? `${whole}.${rest}` : String(whole);
}

// A time in nanoseconds (BigInt), exactly: in seconds, or in smaller units below a millisecond, and with hours and minutes from an hour on.
export function showTime(ns) {
  const second = 1000000000n;
  if (ns === 0n) return '0 s';
  if (ns < 1000n) return `${ns} ns`;
  if (ns < 1000000n) return `${decimal(ns, 1000n, 3)} µs`;
  if (ns < 3600n * second) return `${decimal(ns, second, 9)} s`;
  const rest = ns % (60n * second);
  return `${ns / (3600n * second)} h ${ns / (60n * second) % 60n} min${rest ? ` ${decimal(rest, second, 9)} s` : ''}`;
}

// The names of modems. A modem that the lesson writes as an address is shown as one, and so are those of the same maker (the first three bytes).
export function namesOf(lesson) {
  const written = [...lesson.matchAll(/(?<![\w:-])[0-9a-f]{2}(?:([:-])[0-9a-f]{2})(?:\1[0-9a-f]{2}){4}(?![\w:-])/gi)].map(found => found[0].toLowerCase());
  const makers = new Set(written.map(address => BigInt(`0x${address.replace(/[:-]/g, '').slice(0, 6)}`)));
  return key => {
    if (key >= 1n << 48n || !makers.has(key >> 24n)) return String(key);
    return key.toString(16).padStart(12, '0').match(/../g).join(':');
  };
}

// The width of a text in a sans-serif font, in parts of the font's size, on the large side: for boxes that have to fit it.
export function widthOf(text, size) {
  let units = 0;
  for (const sign of String(text)) units += /[ilj.,:;'|!()]/.test(sign) ? 0.36 : /[mwMW@%—]/.test(sign) ? 0.98 : 0.64;
  return Math.ceil(units * size);
}

// A text cut into lines of at most `most` characters, at spaces, but not between a number and its unit.
export function wrap(text, most) {
  const lines = [];
  for (const word of text.split(/(?<!\d) | (?!(?:ns|µs|s|min|h)\b)/)) {
    const last = lines.length - 1;
    if (last >= 0 && lines[last].length + 1 + word.length <= most) lines[last] += ` ${word}`;
    else lines.push(word);
  }
  return lines;
}
