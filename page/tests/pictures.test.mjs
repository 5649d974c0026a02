// The pictures of the exercises are those that are held in page/exercises, the village is that of `outage`, and names of any length fit.
import assert from 'node:assert/strict';
import fs from 'node:fs';
import { test } from 'node:test';
import { EXERCISES, lessonText } from '../modules/exercises.mjs';
import { ladder } from '../modules/ladder.mjs';
import { readLesson } from '../modules/lesson.mjs';
import { runLesson } from '../modules/run.mjs';
import { shardPicture, wordTable } from '../modules/shard.mjs';
import { namesOf } from '../modules/text.mjs';
import { markWords, runVillage, villagePicture, villageSentences } from '../modules/village.mjs';
import { drawings } from './drawings.mjs';
import { inRoot, loadPrograms, numbers, randomLesson, read } from './programs.mjs';

const programs = await loadPrograms();

test('the pictures of the exercises are held as text: page/draw writes them anew', async () => {
  const made = await drawings(programs);
  for (const [file, text] of made) assert.equal(fs.readFileSync(inRoot(file), 'utf8'), text, `${file}: run page/draw and look at the difference`);
  const held = ['page/exercises', 'docs/pictures'].flatMap(folder => fs.readdirSync(inRoot(folder)).map(name => `${folder}/${name}`));
  assert.deepEqual(held.sort(), [...made.keys()].sort());
});

// A picture is well-formed: every element is closed, no number is missing, and the texts lie within it.
function wellFormed(picture) {
  const open = [];
  for (const [, close, name, end] of picture.matchAll(/<(\/?)([a-z]+)[^>]*?(\/?)>/g)) {
    if (close) assert.equal(open.pop(), name);
    else if (!end) open.push(name);
  }
  assert.deepEqual(open, []);
  assert.doesNotMatch(picture, /NaN|undefined|null|Infinity|\[object/);
}

test('an arrow for each line, a return for each grant, a cross for each denial', async () => {
  for (const exercise of EXERCISES.filter(({ view }) => view === 'ladder')) {
    const run = await runLesson(programs, lessonText(exercise)), picture = ladder(run, exercise), count = sign => picture.split(sign).length - 1;
    const asked = run.steps.slice(1), granted = asked.filter(step => step.answer.code === 0).length;
    wellFormed(picture);
    assert.deepEqual([count('marker-end="url(#ask)"'), count('marker-end="url(#grant)"'), count('l14 14m0 -14')],
      [asked.length, granted, asked.length - granted], exercise.name);
    for (let upTo = 1; upTo <= run.steps.length; upTo++) {
      wellFormed(ladder(run, { ...exercise, upTo }));
      wellFormed(shardPicture(run, run.steps[upTo - 1]));
      assert.match(wordTable(run.steps[upTo - 1], run), /<table>/);
    }
  }
});

test('random lessons are drawn', async () => {
  const next = numbers(11);
  for (let i = 0; i < 40; i++) {
    const run = await runLesson(programs, randomLesson(next, 30));
    wellFormed(ladder(run, { title: 'a & b' }));
    wellFormed(shardPicture(run, run.steps.at(-1)));
    wellFormed(villagePicture(await runVillage(programs, run.lesson, run.names), { title: '<c>' }));
  }
});

test('long names fit: the boxes grow with them', async () => {
  for (const [name, least] of [['1001', 30], ['112394521950', 90], ['18446744073709551615', 150]]) {
    const picture = ladder(await runLesson(programs, `s 2 1000000000 4 4 1 1 - 0\na 0 ${name} 4\na 0 7 1\n`), { title: name });
    const [, width] = picture.match(/width="([\d.]+)" height="24" rx="12"/);
    assert.ok(Number(width) >= least, `${name} ${width}`);
  }
});

test('a village on every input of oracle/outage: its tries end as outage says', async () => {
  for (const name of fs.readdirSync(inRoot('oracle/outage')).filter(file => file.endsWith('.in'))) {
    const text = read('oracle/outage', name).toString(), lesson = await readLesson(programs.lesson, text);
    const village = await runVillage(programs, lesson, namesOf(text));
    if (village.settings) assert.ok(villageSentences(village).length > 0, name);
    wellFormed(villagePicture(village, { title: name }));
  }
});

test('the sentences of a village', async () => {
  const village = async text => runVillage(programs, await readLesson(programs.lesson, text), namesOf(text));
  const found = await village('s 2 1000000000 4 4 2 1 - 0\nv 6 0 a 0 1001 4\n');
  assert.deepEqual(villageSentences(found), ['6 of 6 modems are up after 2 s. The last one is modem 1006. It tried 2 times.',
    "8 tries: 6 granted, 0 denied by the modem's own bucket, 2 denied for lack of room."]);
  assert.equal(markWords(found.marks[4], found.names), 'line 2.5: modem 1005 wants 4 at 0 s, try 1: no room: again at 2 s');
  assert.match(villageSentences(await village('s 1 1s 4 1 1 1 - 0\nv 3 0 a 0 1 1\na 0 4 3\n')).join(' '),
    /1 denied by the modem's own bucket, 2 denied for lack of room/);
  assert.match(villageSentences(await village('s 1 1000000000 1 0 1 1 - 0\na 0 1 1\na 0 2 1\n')).join(' '), /2 modems are not up after 1000 tries\./);
  assert.match(villageSentences(await village('s 1 1000000000 1 0 1 1 - 0\na 0 1 2\n')).join(' '), /1 modem can never come up/);
  assert.match(villageSentences(await village('s 1 1000000000 1 0 1 1 - 0\nd 1\n')).join(' '), /no modem comes up/);
});
