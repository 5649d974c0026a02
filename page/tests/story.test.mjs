// Times and names as they are shown; what each line of a lesson becomes; the sentences; and that the page stops where its ways disagree.
import assert from 'node:assert/strict';
import { test } from 'node:test';
import { Disagreement } from '../modules/engine.mjs';
import { EXERCISES, lessonText } from '../modules/exercises.mjs';
import { TooLong, placeNotes, readLesson } from '../modules/lesson.mjs';
import { readCall, runLesson } from '../modules/run.mjs';
import { answerWords, sentence } from '../modules/story.mjs';
import { decimal, escape, namesOf, plural, showTime, widthOf, wrap } from '../modules/text.mjs';
import { runVillage } from '../modules/village.mjs';
import { loadPrograms, numbers, randomLesson } from './programs.mjs';

const programs = await loadPrograms();

async function told(lesson) {
  const run = await runLesson(programs, lesson);
  return run.steps.map(step => [step.told, answerWords(step), ...step.events.map(event => sentence(event, run.names))]);
}

test('times', () => {
  const shown = [0n, 1n, 999n, 1000n, 1500n, 999999n, 1000000n, 500000000n, 10499999999n, 3599000000000n, 3600000000000n, 90061500000000n,
    18446744073709551615n].map(showTime);
  assert.deepEqual(shown, ['0 s', '1 ns', '999 ns', '1 µs', '1.5 µs', '999.999 µs', '0.001 s', '0.5 s', '10.499999999 s', '3599 s', '1 h 0 min',
    '25 h 1 min 1.5 s',
    '5124095 h 34 min 33.709551615 s']);
});

test('numbers, names and lines', () => {
  assert.equal(decimal(12n, 10n, 3), '1.2');
  assert.equal(decimal(2n, 3n, 3), '0.666');
  assert.equal(plural(1, 'request'), '1 request');
  assert.equal(escape('<a b="c">&'), '&lt;a b=&quot;c&quot;&gt;&amp;');
  assert.deepEqual(wrap('one two three', 7), ['one two', 'three']);
  assert.ok(widthOf('112394521950', 13) > widthOf('1001', 13));
  const names = namesOf('a 0 00:1a:2b:3c:4d:5e 1\nd 00-1A-2B-00-00-01\n');
  assert.equal(names(0x001a2b3c4d5en), '00:1a:2b:3c:4d:5e');
  assert.equal(names(0x001a2b3c4d5fn), '00:1a:2b:3c:4d:5f');
  assert.equal(names(7n), '7');
  assert.equal(namesOf('a 0 112394521950 1')(112394521950n), '112394521950');
});

test('a line of the desk', () => {
  assert.deepEqual(readCall('r 5 7 3 9'), { op: 'r', now: 5n, key: 7n, cost: 3, maxWait: 9n });
  for (const line of ['', 'x 1', 'a 0 7', 'a 0 7 4294967296', 'a 18446744073709551616 7 1', 's 2 1 4 4 2 1 - 2', 's 2 1 4 4 - 1 - 0',
    'a 0  1']) assert.equal(readCall(line), null, line);
});

test('which lines of the desk a line becomes, and what is said of it', async () => {
  const { lines, desk, notes } = await readLesson(programs.lesson, 's 2 1000000000 4 4 2 1 - 0\nv 3 5 a 0 7 1\nnonsense\nd 7');
  assert.deepEqual(lines.map(({ first, count }) => [first, count]), [[1, 1], [2, 3], [5, 0], [5, 1]]);
  assert.deepEqual(desk, ['s 2 1000000000 4 4 2 1 - 0', 'a 0 7 1', 'a 5 8 1', 'a 10 9 1', 'd 7']);
  assert.equal(lines[2].notes.length, 1);
  assert.match(lines[2].notes[0], /line 3/);
  assert.deepEqual(notes, ['lesson: lines written: 5; left out: 1: line 3']);
  await assert.rejects(readLesson(programs.lesson, 'd 7\n'.repeat(401)), TooLong);
  await assert.rejects(readLesson(programs.lesson, 'v 5001 0 d 7\n'), TooLong);
});

test('notes: at the line that they name, the lines that go on with them too', () => {
  const at = new Map([[1, { notes: [] }], [2, { notes: [] }]]);
  const others = placeNotes(['lesson: line 2: field 3 is no time', '  a 5x 7 1', '    ^', 'lesson: 3 lines written, 1 left out',
    'lesson: line 9 is far'], n => at.get(n));
  assert.deepEqual(at.get(2).notes, ['lesson: line 2: field 3 is no time\n  a 5x 7 1\n    ^']);
  assert.deepEqual(others, ['lesson: 3 lines written, 1 left out', 'lesson: line 9 is far']);
});

test('a full shard: forgotten, no room, and why the wait is what it is', async () => {
  assert.deepEqual((await told(lessonText(EXERCISES.find(({ name }) => name === 'power-cut')))).slice(2, 5), [
    ['3 0 0', 'granted', 'The shard is full: its only place is taken.', 'Modem 7 is forgotten. Its debt is kept until 2 s.',
      'Modem 8 is new and gets a place.'],
    ['4 1 500000000', 'not now: ask again in 0.5 s, at 0.5 s', 'The shard is full: its only place is taken.',
      'No room for modem 9: the modem in the only place owes, and the list of debts is full. ' +
      'At 0.5 s modem 8 has all its requests back: of those that this call looked at, the soonest.'],
    ['5 1 500000000', 'not now: ask again in 0.5 s, at 0.5 s', 'The shard is full: its only place is taken.',
      'Modem 8 is forgotten. Its debt is kept until 0.5 s.',
      'Modem 7 is back and still owes 4.', 'Its own bucket is short: modem 7 has 0 and wants 1. It can have 1 at 0.5 s.'],
  ]);
});

test('no room is no room also for a modem whose first requests are too few, and the reason is one that the call looked at', async () => {
  const few = (await told('s 1 1s 4 1 1 1 - 0\na 0 1 1\na 0 2 1\na 0 3 3\n'))[3];
  assert.deepEqual(few.slice(1, 3), ['not now: ask again in 4 s, at 4 s', 'The shard is full: its only place is taken.']);
  assert.match(few[3], /^No room for modem 3: the modem in the only place owes, and the list of debts is full\. At 4 s modem 2 has all its requests back/);
  const many = (await told('s 2 1s 4 4 40 1 - 0\nv 80 0 a 0 1001 4\nv 5 0 a 0 5000 4\n'))[85].join(' ');
  const named = Number(/At 2 s modem (\d+) has all its requests back/.exec(many)[1]);
  assert.ok(named > 1040 && named <= 1080, many);
});

test('a look at a forgotten modem says what it owes', async () => {
  const looked = (await told('s 2 1s 4 4 1 1 - 0\na 0 7 1\na 100ms 8 1\np 250ms 7 4\n'))[3];
  assert.equal(looked[2], 'A look changes nothing. Modem 7 has no place and still owes 0.5, counted as 1. It has 3 and wants 4.');
});

test('a debt that comes back rounded, one that has settled, one that is dropped', async () => {
  assert.deepEqual((await told('s 2 1000000000 4 4 1 1 - 0\na 0 7 3\na 100000000 8 1\na 900000000 7 2\n'))[3].slice(2),
    ['The shard is full: its only place is taken.',
    'Modem 8 has all its requests back. It is forgotten and owes nothing.', 'Modem 7 is back and still owes 1.2, counted as 2.']);
  assert.ok((await told('s 2 1000000000 4 4 1 1 - 0\na 0 7 3\na 0 8 1\na 9000000000 7 2\n'))[3].includes('Modem 7 is back. Its debt has settled.'));
  const dropped = (await told('s 2 1000000000 4 4 1 1 - 1\na 0 7 4\na 0 8 4\na 0 9 4\n'))[3];
  assert.ok(dropped.includes('The debt of modem 7 is dropped to make room (when-full is 1).'));
});

test('the other sentences', async () => {
  const all = (await told('s 2 1000000000 4 4 2 1 0 0\na 10000000000 7 4\na 8000000000 7 1\nr 8000000000 7 1 5\na 8000000000 7 5\n' +
    'f 7 1\nf 9 1\nd 7\nd 7\np 0 7 1\n' +
    'a 30000000000 1 1\na 40000000000 2 1\nr 40000000000 2 4 3000000000\n')).flat();
  for (const wanted of ['The clock was set back by 2 s.', 'Modem 7 would have to wait 2.5 s, and it waits 5 ns at most.',
    'Never: 5 is more than the burst of 4.',
    'Modem 7 gives 1 request back and has 1 now.', 'Modem 9 is not known.', 'Modem 7 is forgotten as asked, and what it owes too.',
      'A look changes nothing. Modem 7 is not known.',
    'Modem 1 was idle and has all its requests back. It is forgotten and owes nothing.',
      'granted, usable in 0.5 s, at 40.5 s']) assert.ok(all.includes(wanted), `${wanted}\n${all.join('\n')}`);
});

test('a settings line that the desk refuses, and a lesson without one', async () => {
  const refused = await runLesson(programs, 's 0 1000000000 4 4 2 1 - 0\na 0 7 1\n');
  assert.equal(refused.settings, null);
  assert.equal(answerWords(refused.steps[0]), 'refused: the amount is 0 or too large');
  assert.match(refused.lesson.lines[0].notes.join(), /line 1 was not accepted/);
  for (const [lesson, told] of [['a 0 7 1\n', '1 9 0'], ['s 2 1000000000 4 4 630 1 - 0\n', '1 15 0']]) assert.equal((await runLesson(programs,
    lesson)).steps[0].told, told);
  for (const lesson of ['', '\n', 'nonsense\n']) assert.equal((await runLesson(programs, lesson)).steps.length, 0);
});

test('random lessons: the desk and the library agree at every line, and every event has its sentence', async () => {
  const next = numbers(3), kinds = new Set();
  for (let i = 0; i < 120; i++) {
    const run = await runLesson(programs, randomLesson(next, 40));
    for (const step of run.steps) {
      assert.ok(answerWords(step));
      for (const event of step.events) {
        kinds.add(event.kind);
        assert.ok(sentence(event, run.names).length > 10, event.kind);
      }
      if (step.answer.code === 1 && step.call.op === 'a') assert.ok(step.events.some(({ kind }) => kind === 'no-room' || kind === 'own-bucket'), step.line);
    }
  }
  for (const kind of ['no-room', 'own-bucket', 'back', 'forgotten', 'settled', 'dropped', 'makes-way', 'too-long', 'clock-back']) assert.ok(kinds.has(kind),
    kind);
});

test('the page stops where the desk and the library disagree', async () => {
  const { library } = programs, lesson = lessonText(EXERCISES[0]);
  const other = changed => ({ ...programs, library: new Proxy(library, { get: (of, name) => name in changed ? changed[name] : typeof of[name] === 'function'
    ? of[name].bind(of) : of[name] }) });
  await assert.rejects(runLesson(other({ call: asked => ({ ...library.call(asked), code: 0 }) }), lesson), Disagreement);
  await assert.rejects(runLesson(other({ call: asked => { const reply = library.call(asked); return { ...reply, number: reply.number + 1n }; } }), lesson),
    Disagreement);
  await assert.rejects(runLesson({ ...programs, desk: programs.lesson }, lesson), error => error instanceof Disagreement || error instanceof SyntaxError);
  const spoilt = () => {
    const store = library.look();
    for (const slot of store.shards[0].slots) slot.turnedAway += 1n;
    return store;
  };
  await assert.rejects(runLesson(other({ look: spoilt }), lesson), Disagreement);
  await assert.rejects(runLesson(other({ available: () => ({ code: 0, number: 9n }) }), lesson), Disagreement);
  const run = await runLesson(other({}), lesson);
  await runVillage(other({}), run.lesson, run.names);
  await assert.rejects(runVillage(other({ call: asked => ({ ...library.call(asked), code: 0 }) }), run.lesson, run.names), Disagreement);
});
