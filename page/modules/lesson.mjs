// A lesson as the compiled program `lesson` reads it: which lines of the desk each line of the lesson becomes, and what is said of it.
import { runOnText } from './host.mjs';
import { Disagreement } from './engine.mjs';

// So many lines of a lesson, and lines of the desk, are shown.
export const MOST_LESSON_LINES = 400, MOST_DESK_LINES = 5000;

export class TooLong extends Error {}

// The lines of the lesson, each { number, text, first, count, notes }: the lines of the desk that it became are `count` lines from `first` on, counted from 1.
// Beside them `desk`, all these lines, and `notes`, what is said of no line by its number.
export async function readLesson(program, text) {
  const texts = text.split('\n');
  if (texts.length > 1 && texts[texts.length - 1] === '') texts.pop();
  if (texts.length > MOST_LESSON_LINES) throw new TooLong(`The lesson has ${texts.length} lines. The page shows at most ${MOST_LESSON_LINES}.`);
  const whole = await runOnText(program, text);
  if (whole.lines.length > MOST_DESK_LINES) {
    throw new TooLong(`The lesson becomes ${whole.lines.length} lines of the desk. The page shows at most ${MOST_DESK_LINES}.`);
  }
  const lines = [];
  let before = 0;
  // What a line becomes may depend on the lines before it, and on none after it: `lesson` is asked for the lesson up to each line.
  for (let i = 0; i < texts.length; i++) {
    const begun = i + 1 === texts.length ? whole : await runOnText(program, `${texts.slice(0, i + 1).join('\n')}\n`);
    const after = begun.lines.length;
    if (after < before || begun.lines.some((line, at) => line !== whole.lines[at])) {
      throw new Disagreement(`lesson reads the first ${i + 1} lines of the lesson otherwise alone than with the others`);
    }
    lines.push({ number: i + 1, text: texts[i], first: before + 1, count: after - before, notes: [] });
    before = after;
  }
  // `lesson` ends with how many lines it wrote and left out. That is shown where it left some out.
  const notes = placeNotes(whole.told.filter(said => !/; left out: 0$/.test(said)), number => lines[number - 1]);
  // The count of lines that were left out says which they are.
  const left = lines.filter(line => !line.count && line.notes.length).map(line => line.number);
  const named = said => /; left out: \d+$/.test(said) && left.length ? `${said}: line ${left.join(', ')}` : said;
  return { lines, desk: whole.lines, notes: notes.map(named) };
}

// Puts what a program says on standard error at the line that it names, and returns what names none. A line that begins with a space goes on with the note
// before it.
export function placeNotes(told, lineOf) {
  const others = [];
  let last = null;
  for (const said of told) {
    const found = /\bline (\d+)\b/.exec(said), line = found && lineOf(Number(found[1]));
    if (/^\s/.test(said) && last) last[last.length - 1] += `\n${said}`;
    else (last = line ? line.notes : others).push(said);
  }
  return others;
}

// The lesson's line that became a line of the desk.
export function lessonLineOf(lesson, deskLine) {
  return lesson.lines.find(({ first, count }) => first <= deskLine && deskLine < first + count) ?? lesson.lines[0];
}

// How a line of the desk is named: by the number of the lesson's line and, where that became several, by its place among them.
export function lineName(lesson, deskLine) {
  const { number, first, count } = lessonLineOf(lesson, deskLine);
  return count > 1 ? `${number}.${deskLine - first + 1}` : String(number);
}
