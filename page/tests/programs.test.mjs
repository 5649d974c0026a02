// The compiled programs answer as recorded, and as the proved programs on this machine do: standard output, standard error and status.
import assert from 'node:assert/strict';
import fs from 'node:fs';
import { test } from 'node:test';
import { MOST_WRITTEN, Stopped, multiply, runProgram } from '../modules/host.mjs';
import { inRoot, loadPrograms, native, numbers, randomLesson, read } from './programs.mjs';

const programs = await loadPrograms(), bytes = text => new TextEncoder().encode(text), text = found => Buffer.from(found).toString();

function same(found, wanted, what) {
  assert.equal(text(found.output), text(wanted.output), `${what}: standard output`);
  assert.equal(text(found.told), text(wanted.told), `${what}: standard error`);
  assert.equal(found.status, wanted.status, `${what}: status`);
}

async function asRecorded(program, folder) {
  const inputs = fs.readdirSync(inRoot(folder)).filter(name => name.endsWith('.in'));
  assert.ok(inputs.length > 10);
  for (const name of inputs) {
    const input = read(folder, name), beside = end => inRoot(folder, name.replace(/in$/, end)), told = beside('err');
    const recorded = { output: fs.readFileSync(beside('out')), told: fs.existsSync(told) ? fs.readFileSync(told) : '', status: native(program, input).status };
    for (const pieces of [65536, 1, 13]) same(await runProgram(programs[program], input, { pieces }), recorded, `${name} in pieces of ${pieces}`);
  }
}

test('the desk on every input of oracle/desk', () => asRecorded('desk', 'oracle/desk'));
test('outage on every input of oracle/outage', () => asRecorded('outage', 'oracle/outage'));

test('the examples of the crates', async () => {
  for (const name of ['desk', 'lesson', 'outage']) {
    const input = read('crates', name, 'stdin'), found = await runProgram(programs[name], input);
    assert.equal(text(found.output), text(read('crates', name, 'stdout')), name);
    same(found, native(name, input), name);
  }
});

test('lesson on what oracle/run-lesson gives it', async () => {
  const inputs = ['s 2 1000000000 4 4 100 1 - 0\nv 200 1000000 a 0 1001 1\nv 200 0 a 199000000 1001 4\n', 'v 3 0 d 1\nv 3 0 d 2\n', '\n'.repeat(65536),
    '\n'.repeat(65535), ''];
  for (const input of inputs) same(await runProgram(programs.lesson, bytes(input), { most: 1e8 }), native('lesson', input),
    JSON.stringify(input.slice(0, 60)));
});

test('many lines', async () => {
  const lines = `s 2 1000000000 4 4 2 1 - 0\n${'a 0 7 0\n'.repeat(100000)}`;
  for (const name of ['desk', 'outage']) same(await runProgram(programs[name], bytes(lines)), native(name, lines), name);
});

test('200 lines of 1,000 tries', async () => {
  const lines = `s 1 1000000000 1 0 1 1 - 0\n${Array.from({ length: 200 }, (_, i) => `a 0 ${i + 1} 1\n`).join('')}`;
  same(await runProgram(programs.outage, bytes(lines)), native('outage', lines), 'outage');
});

test('random lessons, and random bytes', async () => {
  const next = numbers(1);
  for (let i = 0; i < 60; i++) {
    let lesson = randomLesson(next, 60);
    if (i % 3 === 0) lesson = [...lesson].map(sign => next(40) === 0 ? String.fromCharCode(next(128)) : sign).join('');
    for (const name of ['lesson', 'desk', 'outage']) same(await runProgram(programs[name], bytes(lesson)), native(name, lesson), `${name} on ${lesson}`);
  }
});

test('a program that writes too much is stopped', async () => {
  const lines = 'v 65536 1 a 0 1 1\n'.repeat(40);
  await assert.rejects(runProgram(programs.lesson, bytes(lines)), Stopped);
  assert.ok(MOST_WRITTEN < 1e7);
});

test('a run leaves nothing to the next one, also where it was stopped, and runs that are begun together do not meet', async () => {
  const lesson = bytes('s 2 1000000000 4 4 2 1 - 0\na 0 7 4\na 0 7 1\nnonsense\n'), other = bytes('s 3 10 9 9 5 1 - 0\na 5 1 9\nd 1\n');
  for (const name of ['desk', 'lesson', 'outage']) {
    const wanted = native(name, lesson), another = native(name, other);
    for (let i = 0; i < 60; i++) {
      same(await runProgram(programs[name], lesson), wanted, name);
      same(await runProgram(programs[name], other), another, name);
      await assert.rejects(runProgram(programs[name], lesson, { most: 3 }), Stopped);
    }
    const together = await Promise.all([lesson, other, lesson, other].map(input => runProgram(programs[name], input)));
    together.forEach((found, i) => same(found, i % 2 ? another : wanted, `${name}, run ${i} of 4`));
  }
});

test('the memory of a program is as at first at every run', async () => {
  // A program of few bytes that adds 1 to the first word of its memory and returns it.
  const counter = '0061736d01000000010701' + '60027f7f017f' + '03020100' + '0503010001' + '0711020' + '66d656d6f72790200046d61696e0000' +
    '0a16011400' + '41004100280200' + '41016a360200' + '41002802000b';
  const module = await WebAssembly.compile(Buffer.from(counter, 'hex'));
  for (let i = 0; i < 3; i++) assert.equal((await runProgram(module, bytes(''))).status, 1);
});

test('the product that wasm32 asks for', () => {
  const memory = { buffer: new ArrayBuffer(32) }, view = new DataView(memory.buffer), most = (1n << 64n) - 1n;
  for (const [a, b] of [[0n, 7n], [3n, 5n], [most, most], [most, 2n], [(1n << 127n) + 3n, 5n], [123456789n << 60n, 987654321n]]) {
    const signed = word => BigInt.asIntN(64, word);
    multiply(memory, 8, signed(a), signed(a >> 64n), signed(b), signed(b >> 64n));
    assert.equal(view.getBigUint64(8, true) + (view.getBigUint64(16, true) << 64n), BigInt.asUintN(128, a * b));
    assert.equal(view.getBigUint64(0, true) + view.getBigUint64(24, true), 0n);
  }
});
