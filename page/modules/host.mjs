// What a compiled program finds around it in place of an operating system: ten functions, and a product that wasm32 has no instruction for. Standard input is
// given as bytes, standard output and standard error are gathered as bytes. Reads and writes never fail here, so that no error is told: the number of the last
// error says only that there is no argument. A program asks for the features of the processor before it begins, since its code for x86-64 needs some; here it
// is told that it has all of them.

// A program that writes more than this is stopped: `lesson` can be asked for billions of lines.
export const MOST_WRITTEN = 4000000;

export class Stopped extends Error {}

// One instance of each module, and its memory as it was at first. A browser reserves much room for the memory of an instance: thousands of instances, one for
// each run, have been seen to hang. So a run puts the first memory back and uses the instance again. The programs have no other state between two runs but the
// place of the stack, which is where it was once `main` has returned.
const instances = new WeakMap();

const PAGE = 65536;

async function prepare(module) {
  const host = { run: null, error: 0 };
  const write = (file, place, count) => host.run.write(file, place, Number(count));
  const env = {
    read: (file, place, room) => host.run.read(place, Number(room)),
    write,
    __write: write,
    isatty: () => 0,
    rattle_arg: () => -1n,
    rattle_set_errno: number => { host.error = number; },
    rattle_errno: () => host.error,
    __xpg_strerror_r: () => 0,
    __sysv_signal: () => 0n,
    __x86_get_cpuid_feature_leaf: () => host.features,
    __multi3: (place, ...words) => multiply(host.memory, place, ...words),
  };
  const { exports } = await WebAssembly.instantiate(module, { env });
  // A page past the program's own, with each bit set.
  host.features = exports.memory.grow(1) * PAGE;
  const bytes = new Uint8Array(exports.memory.buffer).fill(255, host.features);
  return Object.assign(host, { main: exports.main, memory: exports.memory, first: bytes.slice() });
}

// The product of two numbers of 128 bits, each given as its lower and its upper word. The lower 128 bits of it go to a place in the memory.
export function multiply(memory, place, lower, upper, otherLower, otherUpper) {
  const number = (low, high) => (BigInt.asUintN(64, high) << 64n) + BigInt.asUintN(64, low);
  const product = number(lower, upper) * number(otherLower, otherUpper), view = new DataView(memory.buffer);
  view.setBigUint64(place, BigInt.asUintN(64, product), true);
  view.setBigUint64(place + 8, BigInt.asUintN(64, product >> 64n), true);
}

// Runs a compiled module (WebAssembly.Module) on the bytes of its standard input. It reads at most `pieces` bytes at a time, as from a pipe.
export async function runProgram(module, input, { pieces = 65536, most = MOST_WRITTEN } = {}) {
  if (!instances.has(module)) instances.set(module, prepare(module));
  const host = await instances.get(module), bytes = new Uint8Array(host.memory.buffer), written = { 1: [], 2: [] };
  let at = 0, total = 0, ended = false;
  bytes.set(host.first);
  host.run = {
    read(place, room) {
      const count = Math.min(room, input.length - at, pieces);
      bytes.set(input.subarray(at, at + count), place);
      at += count;
      return BigInt(count);
    },
    write(file, place, count) {
      total += count;
      if (total > most) throw new Stopped(`more than ${most / 1000000} million bytes are written`);
      written[file].push(bytes.slice(place, place + count));
      return BigInt(count);
    },
  };
  try {
    const status = host.main(0, 0);
    ended = true;
    return { output: joined(written[1]), told: joined(written[2]), status };
  } finally {
    // A program that was stopped leaves its stack where it was: the next run begins with another instance.
    if (!ended || host.memory.buffer.byteLength !== host.first.length) instances.delete(module);
  }
}

function joined(pieces) {
  const bytes = new Uint8Array(pieces.reduce((sum, piece) => sum + piece.length, 0));
  let at = 0;
  for (const piece of pieces) {
    bytes.set(piece, at);
    at += piece.length;
  }
  return bytes;
}

// The same on text: the lines of standard output, and those of standard error.
export async function runOnText(module, text) {
  const { output, told, status } = await runProgram(module, new TextEncoder().encode(text));
  const lines = bytes => new TextDecoder().decode(bytes).split('\n').filter((line, i, all) => i < all.length - 1 || line);
  return { lines: lines(output), told: lines(told), status };
}
