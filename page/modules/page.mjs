// The page: takes the lesson, has it run, and shows the answers and the pictures. Nothing here decides a number.
import { Disagreement, loadLibrary } from './engine.mjs';
import { EXERCISES, lessonText } from './exercises.mjs';
import { Stopped } from './host.mjs';
import { ladder } from './ladder.mjs';
import { TooLong } from './lesson.mjs';
import { runLesson } from './run.mjs';
import { shardPicture, wordTable } from './shard.mjs';
import { STRONG, answerWords, sentence } from './story.mjs';
import { escape, plural } from './text.mjs';
import { markWords, runVillage, villagePicture, villageSentences } from './village.mjs';

const at = id => document.getElementById(id);
const state = { programs: null, run: null, village: null, step: 1, view: 'ladder', turn: 0, title: 'A lesson' };

// The compiled programs, which page/assemble has put into the file as text.
async function loadPrograms() {
  const bytes = name => Uint8Array.from(atob(at(`wasm-${name}`).textContent.trim()), sign => sign.charCodeAt(0));
  const [lesson, desk, outage, library] = await Promise.all(['lesson', 'desk', 'outage', 'library'].map(name => WebAssembly.compile(bytes(name))));
  return { lesson, desk, outage, library: await loadLibrary(library) };
}

// A whole run of the lesson that stands in the page. A later one overtakes it.
async function runPage({ step = null } = {}) {
  const turn = ++state.turn, text = at('lesson').value;
  try {
    const run = await runLesson(state.programs, text);
    if (turn !== state.turn) return;
    state.village = null;
    state.mark = null;
    state.run = run;
    state.step = Math.min(step ?? run.steps.length, run.steps.length) || 1;
    at('stopped').hidden = true;
  } catch (error) {
    if (turn !== state.turn) return;
    stop(error);
    return;
  }
  await show();
}

// The page stops: no picture and no number is left that may be wrong.
function stop(error) {
  state.run = null;
  for (const id of ['answers', 'picture', 'shard', 'words', 'now', 'notes']) at(id).innerHTML = '';
  at('stopped').hidden = false;
  at('stopped').textContent = error instanceof Disagreement
    ? `Stop. Two ways to the same number disagree, so nothing is shown. Please report this lesson. (${error.message})`
    : error instanceof TooLong ? error.message
    : error instanceof Stopped ? `The lesson is too long for the page: ${error.message}.`
    : `Stop. The page has failed: ${error.message}`;
  console.error(error);
}

async function show() {
  const { run, step, view } = state, last = Math.max(run.steps.length, 1), current = run.steps[step - 1];
  at('step').max = last;
  at('step').value = step;
  at('step-number').textContent = `${step} of ${last}`;
  at('step').setAttribute('aria-valuetext', current ? `line ${current.name}: ${current.line}` : '');
  for (const name of ['ladder', 'village']) at(`view-${name}`).setAttribute('aria-pressed', String(view === name));
  at('notes').innerHTML = run.notes.map(note => `<p>${escape(note)}</p>`).join('');
  at('answers').innerHTML = answerRows(run, step);
  const stepped = view === 'ladder' && current?.after;
  at('stepping').hidden = view !== 'ladder';
  at('side').hidden = !stepped;
  at('now').innerHTML = stepped ? stepWords(current, run) : '';
  at('shard').innerHTML = stepped ? renamed(shardPicture(run, current), 'shard') : '';
  at('words').innerHTML = stepped ? wordTable(current, run) : '';
  if (view === 'village') await showVillage();
  else at('picture').innerHTML = run.settings ? renamed(ladder(run, { title: state.title, upTo: step, narrow: isNarrow() }), 'ladder')
    : '<p>There is no store: look at line 1.</p>';
  keepAddress();
}

async function showVillage() {
  const { turn, run } = state;
  try {
    state.village ??= await runVillage(state.programs, run.lesson, run.names);
  } catch (error) {
    if (turn === state.turn) stop(error);
    return;
  }
  if (turn !== state.turn || state.view !== 'village') return;
  const { village } = state;
  at('picture').innerHTML = village.settings ? villagePicture(village, { title: state.title }) : '<p>There is no store: look at line 1.</p>';
  const said = villageSentences(village).map(text => `<p>${escape(text)}</p>`).join('');
  at('now').innerHTML = village.settings ? `${said}<p id="mark">Point at a mark, tap it, or go through them with the arrow keys, to see its line.</p>` : '';
}

// A phone gets a narrow ladder.
function isNarrow() {
  return matchMedia('(max-width: 760px)').matches;
}

// Two pictures stand in one page: what a picture names is named for it alone.
function renamed(picture, prefix) {
  return picture.replace(/(id="|url\(#)(stripes|ask|grant)/g, `$1${prefix}-$2`);
}

// A row for each line of the lesson: its text, the desk's numbers, the answer in words, and what the programs say of the line.
function answerRows({ lesson, steps }, current) {
  return lesson.lines.map(line => {
    const mine = steps.filter(step => step.lessonLine === line), here = mine.some(step => step.number === current);
    const notes = line.notes.map(note => `<div class="note"><b aria-hidden="true">!</b> ${escape(note).replace(/\n/g, '<br>')}</div>`).join('');
    const answer = mine.length > 1 ? several(mine, current) : mine.map(step =>
      `<td>${stepButton(step)}</td><td>${sign(step)} ${escape(answerWords(step))}${notes}</td>`).join('');
    const cells = answer || `<td></td><td>${notes || (line.count ? 'not answered: the desk has ended' : line.text.trim() ? 'nothing is asked' : '')}</td>`;
    const whole = mine.length > 1 ? cells.replace('</summary>', `</summary>${notes}`) : cells;
    return `<tr${here ? ' class="here"' : ''}><th scope="row">${line.number}</th><td><code>${escape(line.text)}</code></td>${whole}</tr>`;
  }).join('');
}

function several(steps, current) {
  const count = (word, test) => {
    const found = steps.filter(step => test(step.answer.code)).length;
    return found ? [`${found} ${word}`] : [];
  };
  const counts = [...count('granted', code => code === 0), ...count('not now', code => code === 1), ...count('other', code => code > 1)].join(', ');
  const rows = steps.slice(0, 300).map(step => `<div${step.number === current ? ' class="here"' : ''}>${stepButton(step)} ` +
    `<code>${escape(step.line)}</code> ${sign(step)} ${escape(answerWords(step))}</div>`);
  const open = steps.some(step => step.number === current) && current !== steps[steps.length - 1].number ? ' open' : '';
  const summary = `<summary>${plural(steps.length, 'line')}: ${counts}</summary>`;
  return `<td>${steps[0].number} to ${steps[steps.length - 1].number}</td><td><details${open}>${summary}${rows.join('')}</details></td>`;
}

function stepButton({ number, told }) {
  return `<button type="button" class="told" data-step="${number}" title="show line ${number}">${escape(told)}</button>`;
}

// A sign beside the words: a tick, a cross, or a mark.
function sign({ answer: { code } }) {
  return code === 0 ? '<span class="yes" aria-hidden="true">✔</span>' : code < 9 ? '<span class="no" aria-hidden="true">✖</span>'
    : '<span class="no" aria-hidden="true">!</span>';
}

function stepWords(step, { names }) {
  const said = step.events.map(event => `<li${STRONG.has(event.kind) ? ' class="strong"' : ''}>${escape(sentence(event, names))}</li>`);
  const asked = `<b>Line ${step.name}</b> <code>${escape(step.line)}</code> → <code>${escape(step.told)}</code>`;
  return `<p>${asked}: ${sign(step)} ${escape(answerWords(step))}</p><ul>${said.join('')}</ul>`;
}

// The address of the page has the lesson in it, behind #.
function keepAddress() {
  const view = state.view === 'village' ? '&view=village' : '', step = state.run && state.step < state.run.steps.length ? `&step=${state.step}` : '';
  history.replaceState(null, '', `#lesson=${encodeURIComponent(at('lesson').value)}${view}${step}`);
}

function fromAddress() {
  const parts = new URLSearchParams(location.hash.slice(1).replace(/\+/g, '%2B')), lesson = parts.get('lesson');
  if (lesson === null) return false;
  at('lesson').value = lesson;
  state.view = parts.get('view') === 'village' ? 'village' : 'ladder';
  const known = EXERCISES.find(exercise => lessonText(exercise) === lesson);
  choose(known);
  return { step: parts.has('step') ? Number(parts.get('step')) : null };
}

// The title and the hint of the exercise that stands in the page; a lesson of one's own has none.
function choose(exercise) {
  at('exercise').value = exercise?.name ?? '';
  at('hint').textContent = exercise?.hint ?? '';
  state.title = exercise?.title ?? 'A lesson';
}

function load(exercise) {
  at('lesson').value = lessonText(exercise);
  state.view = exercise.view;
  choose(exercise);
  return runPage();
}

function saveSvg() {
  const drawn = at('picture').querySelector('svg');
  if (!drawn) return;
  const link = document.createElement('a');
  link.href = URL.createObjectURL(new Blob([drawn.outerHTML], { type: 'image/svg+xml' }));
  link.download = `${state.title.toLowerCase().replace(/[^a-z0-9]+/g, '-')}.svg`;
  link.click();
  setTimeout(() => URL.revokeObjectURL(link.href), 1000);
}

async function share() {
  keepAddress();
  at('address').hidden = false;
  at('address').value = location.href;
  at('address').select();
  try {
    await navigator.clipboard.writeText(location.href);
    at('shared').textContent = 'The address is copied.';
  } catch {
    at('shared').textContent = 'Copy this address.';
  }
}

function goTo(step) {
  if (!state.run) return;
  state.step = Math.max(1, Math.min(step, state.run.steps.length || 1));
  state.view = 'ladder';
  show();
}

export async function startPage() {
  const options = EXERCISES.map(({ name, title }) => `<option value="${name}">${escape(title)}</option>`);
  at('exercise').innerHTML = `<option value="">my own lesson</option>${options.join('')}`;
  let typing = null;
  at('lesson').addEventListener('input', () => {
    choose(EXERCISES.find(exercise => lessonText(exercise) === at('lesson').value));
    clearTimeout(typing);
    typing = setTimeout(runPage, 300);
  });
  at('exercise').addEventListener('change', () => {
    const exercise = EXERCISES.find(({ name }) => name === at('exercise').value);
    if (exercise) load(exercise);
  });
  at('step').addEventListener('input', () => goTo(Number(at('step').value)));
  at('back').addEventListener('click', () => goTo(state.step - 1));
  at('on').addEventListener('click', () => goTo(state.step + 1));
  for (const view of ['ladder', 'village']) {
    at(`view-${view}`).addEventListener('click', () => {
      state.view = view;
      if (state.run) show();
    });
  }
  at('answers').addEventListener('click', event => {
    const button = event.target.closest('[data-step]');
    if (!button) return;
    goTo(Number(button.dataset.step));
    // The rows are new: the keyboard stays at the same answer.
    at('answers').querySelector(`[data-step="${button.dataset.step}"]`)?.focus();
  });
  at('picture').addEventListener('click', pointAt);
  at('picture').addEventListener('mouseover', pointAt);
  at('picture').addEventListener('keydown', stepMarks);
  at('save').addEventListener('click', saveSvg);
  at('print').addEventListener('click', () => print());
  // On paper the answers of a village are open.
  addEventListener('beforeprint', () => document.querySelectorAll('#answers details').forEach(found => { found.open = true; }));
  at('share').addEventListener('click', share);
  matchMedia('(max-width: 760px)').addEventListener('change', () => state.run && show());
  addEventListener('hashchange', () => {
    const found = fromAddress();
    if (found) runPage(found);
  });
  try {
    state.programs = await loadPrograms();
  } catch (error) {
    stop(error);
    return;
  }
  const found = fromAddress();
  await (found ? runPage(found) : load(EXERCISES[1]));
  document.body.dataset.ready = 'yes';
}

// A mark of the village says its line; a line of the ladder is gone to when it is clicked.
function pointAt(event) {
  const mark = event.target.closest('[data-mark]'), row = event.type === 'click' && event.target.closest('[data-step]');
  if (mark && state.village && at('mark')) tellMark(Number(mark.dataset.mark));
  else if (row) goTo(Number(row.dataset.step));
}

function tellMark(mark) {
  state.mark = mark;
  at('mark').textContent = markWords(state.village.marks[mark], state.run.names);
}

// By keyboard: the arrow keys go through the marks of a village, in the order of the tries.
function stepMarks(event) {
  const by = { ArrowRight: 1, ArrowLeft: -1 }[event.key], count = state.village?.marks.length;
  if (!by || state.view !== 'village' || !count || !at('mark')) return;
  event.preventDefault();
  tellMark(Math.max(0, Math.min(count - 1, (state.mark ?? -by) + by)));
}
