// The compiled library answers as recorded, with every word; and what is decoded from the words is what the library says of them.
import assert from 'node:assert/strict';
import { test } from 'node:test';
import { Disagreement, decode } from '../modules/engine.mjs';
import { loadPrograms, numbers, read } from './programs.mjs';

const { library } = await loadPrograms();

// FNV-1a over the words, as crates/test_store_traces has it.
function digest(words) {
  let found = 14695981039346656037n;
  for (const word of words) found = BigInt.asUintN(64, (found ^ word) * 1099511628211n);
  return found;
}

test('the recorded traces: every answer, and a hash of all words after it', () => {
  const calls = ['set_up', 'try', 'reserve', 'peek', 'available', 'refund', 'remove', 'clear', 'length', 'turned_away'], printed = [];
  let words = [];
  for (const line of read('crates/test_store_traces/stdin').toString().split('\n').slice(0, -1)) {
    if (!/^\d/.test(line)) {
      printed.push(`${line}: `);
      continue;
    }
    const fields = line.split(' ').map(BigInt), field = i => fields[i] ?? 0n;
    if (field(0) === 0n) {
      const [closed, amount, hasBurst, burst, hasInitial, initial, hasIdle, forget] = [2, 3, 5, 6, 7, 8, 11, 13].map(i => Number(field(i)));
      library.write({ period: field(4), modems: field(9), shards: field(10), idle: hasIdle ? field(12) : null, amount, burst: hasBurst ? burst : null,
        initial: hasInitial ? initial : null, forgetDebt: forget !== 0, closed: closed !== 0 });
      const size = Number(field(1));
      library.lend(size);
      words = words.slice(0, size);
      library.put([...words, ...Array(size - words.length).fill(0n)]);
      continue;
    }
    const [now, hash, key, cost, longest] = [1, 2, 3, 4, 5].map(field), name = calls[Number(field(0)) - 1], small = Number(cost);
    const args = { set_up: [], try: [now, hash, key, small], reserve: [now, hash, key, small, longest], peek: [now, hash, key, small],
      available: [now, hash, key],
      refund: [hash, key, small], remove: [hash, key], clear: [], length: [], turned_away: [hash, key] }[name];
    const { code, number } = library.reply(name, ...args);
    words = [...library.words()];
    printed.push(`${code} ${number} ${digest(words)}\n`);
  }
  assert.equal(printed.join(''), read('crates/test_store_traces/stdout').toString());
});

test('random stores: the words decoded, against length, available, turned away and debts', () => {
  const next = numbers(7), pick = list => list[next(list.length)];
  let checks = 0, debts = 0, turned = 0n;
  for (let store = 0; store < 150; store++) {
    const burst = 1 + next(5), settings = { amount: 1 + next(4), period: pick([1000000000n, 10n, 1000003n]), burst, initial: pick([burst, 0]),
      modems: BigInt(next(40)),
      shards: pick([0n, 1n, 1n, 2n, 5n, 64n]), idle: pick([null, null, 0n, 1000000n]), forgetDebt: next(3) === 0, closed: false };
    assert.equal(library.setUp(settings).code, 0);
    let now = 0n;
    for (let i = 0; i < 60; i++) {
      now = next(15) === 0 ? now / 2n : now + BigInt(pick([0, 0, next(10), next(900000000)]));
      library.call({ op: pick(['a', 'a', 'a', 'a', 'r', 'f', 'd', 'p']), now, key: BigInt(next(30)), cost: next(burst + 2),
        maxWait: BigInt(next(1000000000)) });
      const found = library.look();
      library.check(found, now);
      checks += 1;
      debts += found.shards.reduce((sum, shard) => sum + shard.debts.length, 0);
      turned += found.shards.reduce((sum, shard) => sum + shard.slots.reduce((more, slot) => more + slot.turnedAway, 0n), 0n);
    }
  }
  assert.ok(checks === 9000 && debts > 1000 && turned > 1000n, `${checks} ${debts} ${turned}`);
});

test('words that are decoded wrongly are noticed', () => {
  const settings = { amount: 2, period: 1000000000n, burst: 4, initial: 4, modems: 2n, shards: 1n, idle: null, forgetDebt: false, closed: false };
  library.setUp(settings);
  for (const key of [1n, 2n, 3n]) library.call({ op: 'a', now: 0n, key, cost: 3 });
  library.call({ op: 'a', now: 0n, key: 3n, cost: 3 });
  const spoil = change => {
    const found = decode(library.words(), settings);
    change(found, found.shards[0]);
    assert.throws(() => library.check(found, 0n), Disagreement);
  };
  library.check(library.look(), 0n);
  spoil(found => { found.total += 1n; });
  spoil((_, shard) => { shard.slots.pop(); });
  spoil((_, shard) => { shard.slots[0].key += 1n; });
  spoil((_, shard) => { shard.slots[0].shortfall = 0n; });
  spoil((_, shard) => { shard.slots[1].turnedAway += 1n; });
  spoil((_, shard) => { shard.debts.pop(); });
  spoil((_, shard) => { shard.debts[0].settles += 1n; });
  spoil(found => { found.shards.push(found.shards[0]); });
});
