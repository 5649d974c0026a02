// What the tests share: the compiled programs, the folders, a generator of random numbers that always gives the same ones, and the native programs.
import { spawnSync } from 'node:child_process';
import fs from 'node:fs';
import path from 'node:path';
import { fileURLToPath } from 'node:url';
import { loadLibrary } from '../modules/engine.mjs';

export const ROOT = path.resolve(path.dirname(fileURLToPath(import.meta.url)), '../..');
export const inRoot = (...names) => path.join(ROOT, ...names);
export const read = (...names) => fs.readFileSync(inRoot(...names));

const compiled = name => WebAssembly.compile(read('target/page', `${name}.wasm`));

export async function loadPrograms() {
  const [lesson, desk, outage, library] = await Promise.all(['lesson', 'desk', 'outage', 'library'].map(compiled));
  return { lesson, desk, outage, library: await loadLibrary(library) };
}

// The proved program as it runs on this machine.
export function native(name, input) {
  const { stdout, stderr, status } = spawnSync(inRoot('crates', name, 'out', name), { input, maxBuffer: 1 << 26 });
  return { output: stdout, told: stderr, status };
}

// Whole numbers below a bound, the same at every run.
export function numbers(seed) {
  let state = BigInt(seed) * 2654435761n + 88172645463325252n;
  return below => {
    state ^= state << 13n & (1n << 64n) - 1n;
    state ^= state >> 7n;
    state ^= state << 17n & (1n << 64n) - 1n;
    return Number(state % BigInt(below));
  };
}

// A random lesson of desk lines on a small store, with some moments that fall.
export function randomLesson(next, lines) {
  const pick = list => list[next(list.length)], amount = 1 + next(5), burst = 1 + next(6);
  const rate = `${amount} ${pick([1000000000, 10, 7, 1000003])} ${burst} ${pick([burst, 0, 1])}`;
  const first = `s ${rate} ${next(7)} ${pick([1, 1, 1, 2, 3, 8])} ${pick(['-', '-', 0, 1, 2000000000])} ${next(2)}`;
  const written = [first];
  let now = 0;
  for (let i = 1; i < lines; i++) {
    now = next(12) === 0 ? Math.max(0, now - next(3000000000)) : now + pick([0, 0, 1, next(10), next(1000000000)]);
    const modem = 1 + next(9), cost = next(burst + 2);
    written.push(pick([`a ${now} ${modem} ${cost}`, `a ${now} ${modem} ${cost}`, `a ${now} ${modem} ${cost}`, `p ${now} ${modem} ${cost}`,
      `r ${now} ${modem} ${cost} ${next(3000000000)}`, `f ${modem} ${cost}`, next(3) ? `a ${now} ${modem} 1` : `d ${modem}`]));
  }
  return `${written.join('\n')}\n`;
}
