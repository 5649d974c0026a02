// The compiled library: lends it memory, calls its functions, and reads the words of the store back. Every answer is the library's. What is decoded here is the
// layout of the words (crates/store/specs/Memory.antt, and Layout.antt of shard_map and ledger); `check` holds it to what the library itself returns.

const SETTINGS_BYTES = 72, REPLY_BYTES = 24, DEBT_BYTES = 16;

// The desk's memory has 8,192 words, and the desk refuses what needs more.
export const DESK_WORDS = 8192;

export class Disagreement extends Error {}

export async function loadLibrary(module) {
  const instance = await WebAssembly.instantiate(module, {});
  return new Library(instance.exports);
}

export class Library {
  constructor(exports) {
    this.exports = exports;
    const base = (Number(exports.__heap_base.value) + 15) & ~15;
    this.settingsAt = base;
    this.replyAt = base + SETTINGS_BYTES + 8;
    this.wordsAt = base + 128;
    this.settings = null;
    this.lend(0);
  }

  view() {
    return new DataView(this.exports.memory.buffer);
  }

  // Room for this many words and, behind them, for this many records of debts.
  lend(words, records = 0) {
    this.recordsAt = this.wordsAt + 8 * words;
    const missing = this.recordsAt + DEBT_BYTES * records - this.exports.memory.buffer.byteLength;
    if (missing > 0) this.exports.memory.grow(Math.ceil(missing / 65536));
    this.size = words;
  }

  // The settings as limiter.h has them: { period, modems, shards, idle (null: none), amount, burst, initial (null: unset), forgetDebt, closed }.
  write(settings) {
    this.settings = settings;
    const view = this.view(), { period, modems, shards, idle, amount, burst, initial, forgetDebt, closed } = settings;
    [period, modems, shards, idle ?? 0n].forEach((word, i) => view.setBigUint64(this.settingsAt + 8 * i, word, true));
    const has = value => value === null ? 0 : 1;
    const small = [closed ? 1 : 0, amount, has(burst), burst ?? 0, has(initial), initial ?? 0, has(idle), forgetDebt ? 1 : 0, 0, 0];
    small.forEach((word, i) => view.setUint32(this.settingsAt + 32 + 4 * i, word, true));
  }

  reply(name, ...rest) {
    this.exports[`limiter_${name}`](this.replyAt, this.settingsAt, this.wordsAt, BigInt(this.size), ...rest);
    const view = this.view(), word = i => BigInt.asUintN(64, view.getBigUint64(this.replyAt + 8 * i, true));
    return { code: Number(word(0)), number: word(1), moment: word(2) };
  }

  hash(key) {
    return BigInt.asUintN(64, this.exports.limiter_key_hash(key));
  }

  // As the desk: a store that needs more words than the desk has is refused with 15. Settings that are refused first have their own code.
  setUp(settings) {
    this.write(settings);
    const words = Number(BigInt.asUintN(64, this.exports.limiter_words(this.settingsAt)));
    this.lend(Math.min(words, DESK_WORDS), Math.min(words, DESK_WORDS));
    return this.reply('set_up');
  }

  // A call: { op: a, p, r, f or d, now, key, cost, maxWait }.
  call({ op, now, key, cost, maxWait }) {
    const hash = this.hash(key);
    if (op === 'a') return this.reply('try', now, hash, key, cost);
    if (op === 'p') return this.reply('peek', now, hash, key, cost);
    if (op === 'r') return this.reply('reserve', now, hash, key, cost, maxWait);
    if (op === 'f') return this.reply('refund', hash, key, cost);
    return this.reply('remove', hash, key);
  }

  peek(now, key, cost) {
    return this.reply('peek', now, this.hash(key), key, cost);
  }

  available(now, key) {
    return this.reply('available', now, this.hash(key), key);
  }

  turnedAway(key) {
    return this.reply('turned_away', this.hash(key), key);
  }

  length() {
    return this.reply('length');
  }

  // The debts of a shard that settle after a moment, as the library lists them.
  debts(now, shard) {
    const { code, number } = this.reply('debts', now, BigInt(shard), this.recordsAt, BigInt(this.size));
    const view = this.view(), word = i => view.getBigUint64(this.recordsAt + 8 * i, true), found = [];
    for (let i = 0; i < Number(number); i++) found.push({ hash: word(2 * i), settles: word(2 * i + 1) });
    return { code, found };
  }

  words() {
    return new BigUint64Array(this.exports.memory.buffer, this.wordsAt, this.size).slice();
  }

  put(words) {
    new BigUint64Array(this.exports.memory.buffer, this.wordsAt, this.size).set(words);
  }

  look() {
    return decode(this.words(), this.settings);
  }

  // The picture of the store has to be what the library says of it: how many modems have a place; of each what it has, its hash and the tries turned away; the
  // debts, shard by shard. And each modem and debt has to be in the shard in which the page looks for it.
  check(store, now) {
    const same = (what, decoded, told) => {
      if (String(decoded) !== String(told)) throw new Disagreement(`${what}: the words say ${decoded}, the library says ${told}`);
    };
    same('modems with a place', store.shards.reduce((sum, shard) => sum + shard.slots.length, 0), this.length().number);
    same('the total', store.total, this.length().number);
    store.shards.forEach((shard, i) => {
      for (const slot of shard.slots) {
        same(`the hash of modem ${slot.key}`, slot.hash, this.hash(slot.key));
        same(`the shard of modem ${slot.key}`, i, shardOf(slot.hash, this.settings));
        same(`tries of modem ${slot.key} turned away`, slot.turnedAway, this.turnedAway(slot.key).number);
        if (!this.settings.closed) same(`what modem ${slot.key} has`, availableIn(slot, this.settings, now), this.available(now, slot.key).number);
      }
      for (const debt of shard.debts) same(`the shard of the debt of ${debt.hash}`, i, shardOf(debt.hash, this.settings));
      const listed = shard.debts.filter(debt => debt.settles > now), show = list => list.map(debt => `${debt.hash}@${debt.settles}`).join(' ');
      same(`debts of shard ${i}`, show(listed), show(this.debts(now, i).found));
    });
    same('the shards', store.shards.length, store.shards.findIndex((_, i) => this.debts(now, i + 1).code === 26) + 1);
  }
}

// The words of a store, decoded: a word for the total, then the shards, each with its count, hand, sweep and slots, then its count of debts, cursor and debts.
// Two indexes lie behind them; they say nothing that the rest does not, and are left out.
export function decode(words, settings) {
  const shape = shapeOf(settings), shards = [];
  for (let i = 0; i < shape.shards; i++) {
    const start = 1 + i * (5 + 13 * shape.places), ledger = start + 3 + 7 * shape.places, slots = [], debts = [];
    for (let p = 0; p < Number(words[start]); p++) {
      const [hash, key, shortfall, stamp, mark, seen, turnedAway] = words.subarray(start + 3 + 7 * p, start + 10 + 7 * p);
      slots.push({ hash, key, shortfall, stamp, mark, seen, turnedAway });
    }
    for (let p = 0; p < Number(words[ledger]); p++) debts.push({ hash: words[ledger + 2 + 2 * p], settles: words[ledger + 3 + 2 * p] });
    shards.push({ places: shape.places, hand: words[start + 1], sweep: words[start + 2], slots, cursor: words[ledger + 1], debts });
  }
  return { total: words[0], shards };
}

// How many shards a store has, and how many places each. For up to 16,384 modems no more shards are made than are asked for, rounded up to a power of two.
export function shapeOf({ modems, shards }) {
  const least = Math.max(Number(shards), Math.ceil(Number(modems) / 16384), 1);
  let count = 1;
  while (count < least) count *= 2;
  return { shards: count, places: Math.max(Math.ceil(Number(modems) / count), 1) };
}

// The shard of a hash, by its number: bits of the hash from bit 40 on. `check` holds it to where the words have the modem.
export function shardOf(hash, settings) {
  return Number((hash >> 40n) & BigInt(shapeOf(settings).shards - 1));
}

// The whole requests that a bucket has, from its two words: for the check alone, what is shown is the library's number.
function availableIn({ shortfall, stamp }, { burst, amount, period }, now) {
  const full = BigInt(burst ?? amount) * period, back = now > stamp ? (now - stamp) * BigInt(amount) : 0n;
  const read = shortfall < full + (1n << 62n) ? shortfall : full + (1n << 62n), lacking = read > back ? read - back : 0n;
  return full > lacking ? (full - lacking) / period : 0n;
}
