// Runs a lesson: the program `lesson` reads it, `desk` answers it, and the library answers the same calls one by one, so that the store can be shown after
// each. The page stops where the two answers differ.
import { runOnText } from './host.mjs';
import { Disagreement } from './engine.mjs';
import { readLesson, lessonLineOf, lineName, placeNotes } from './lesson.mjs';
import { eventsOf } from './story.mjs';
import { namesOf } from './text.mjs';

// A line as `lesson` writes it, which is a line that the desk reads. Null for any other.
export function readCall(line) {
  const [op, ...fields] = line.split(' '), count = { s: 8, a: 3, p: 3, r: 4, f: 2, d: 1 }[op];
  if (fields.length !== count || fields.some((field, i) => !(/^\d{1,20}$/.test(field) || op === 's' && i === 6 && field === '-'))) return null;
  const big = i => BigInt(fields[i]), small = i => Number(fields[i]), narrow = { s: [0, 2, 3], a: [2], p: [2], r: [2], f: [1], d: [] }[op];
  if (narrow.some(i => big(i) >> 32n) || fields.some(field => field !== '-' && BigInt(field) >> 64n) || op === 's' && big(7) > 1n) return null;
  if (op === 's') {
    const [amount, burst, initial] = [small(0), small(2), small(3)], idle = fields[6] === '-' ? null : big(6);
    return { op, amount, period: big(1), burst, initial, modems: big(4), shards: big(5), idle, forgetDebt: small(7) === 1, closed: false };
  }
  if (op === 'f') return { op, key: big(0), cost: small(1) };
  if (op === 'd') return { op, key: big(0) };
  return { op, now: big(0), key: big(1), cost: small(2), ...(op === 'r' ? { maxWait: big(3) } : {}) };
}

// The steps of a run, one for each answered line of the desk: { number, line, call, answer, now, before, after, events, has }. `has` is what each modem with a
// place has, as the library says it. `settings` is null where the desk does not accept line 1.
export async function runLesson({ lesson: reader, desk, library }, text) {
  const lesson = await readLesson(reader, text), names = namesOf(text);
  const answered = await runOnText(desk, lesson.desk.map(line => `${line}\n`).join(''));
  const notes = [...lesson.notes, ...placeNotes(answered.told, number => lesson.desk.length ? lessonLineOf(lesson, number) : null)];
  const run = { lesson, names, notes, steps: [], settings: null, keys: new Map() };
  let now = 0n, before = null;
  for (const [i, told] of answered.lines.entries()) {
    const line = lesson.desk[i] ?? '', call = readCall(line), [number, code, wait] = told.split(' ').map(BigInt);
    const step = { number: i + 1, line, told, call, lessonLine: lessonLineOf(lesson, i + 1), name: lineName(lesson, i + 1), before, events: [] };
    run.steps.push(step);
    let answer = { code: 9, number: 0n, moment: 0n }, clock = now, looks = null;
    if (i === 0 && call?.op === 's') {
      answer = library.setUp(call);
      if (answer.code === 0) run.settings = call;
    } else if (call && call.op !== 's' && run.settings) {
      clock = call.now ?? now;
      run.keys.set(library.hash(call.key), call.key);
      if (call.now !== undefined && call.now <= 1n << 62n) looks = { peek: library.peek(clock, call.key, call.cost),
        has: library.available(clock, call.key).number };
      answer = library.call(call);
    }
    agree(`line ${i + 1} (${line})`, `${number} ${code} ${wait}`, `${i + 1} ${answer.code} ${answer.number}`);
    step.answer = { code: answer.code, wait: answer.number, moment: answer.moment };
    if (!run.settings) return run;
    // A moment that is refused is not the clock's.
    step.now = answer.code > 10 ? now : clock;
    step.after = library.look();
    library.check(step.after, step.now);
    step.has = new Map(step.after.shards.flatMap(shard => shard.slots).map(slot => [slot.key, library.available(step.now, slot.key).number]));
    step.full = fullMoments(library, step, run.settings);
    if (before) step.events = eventsOf(step, { settings: run.settings, keys: run.keys, last: now, looks });
    before = step.after;
    now = step.now;
  }
  if (answered.lines.length < lesson.desk.length) throw new Disagreement('the desk has answered fewer lines than it was given');
  return run;
}

// When the bucket of each modem with a place will be full: a peek for the whole burst tells.
function fullMoments(library, { after, now }, { burst }) {
  return new Map(after.shards.flatMap(shard => shard.slots).map(slot => [slot.key, library.peek(now, slot.key, burst).moment]));
}

export function agree(what, first, second) {
  if (first !== second) throw new Disagreement(`${what}: the program says ${first}, the library says ${second}`);
}
