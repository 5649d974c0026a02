// What happened at a step, read off the words before and after it and off the library's looks, and the sentences that say so. Nothing here decides an answer.
import { Disagreement, shardOf } from './engine.mjs';
import { decimal, plural, showTime } from './text.mjs';

// The hash of the modem of a call, by the table of hashes that the run has met.
export function hashOf(key, keys) {
  for (const [hash, named] of keys) if (named === key) return hash;
  return null;
}

const slotOf = (shard, key) => shard.slots.find(slot => slot.key === key);
const debtOf = (shard, hash) => shard.debts.find(debt => debt.hash === hash);

export function eventsOf(step, { settings, keys, last, looks }) {
  const { call, answer, now, before, after } = step, events = [];
  if (!call || call.op === 's' || answer.code > 8) return events;
  const hash = hashOf(call.key, keys), index = shardOf(hash, settings), was = before.shards[index], is = after.shards[index], key = call.key;
  const held = slotOf(was, key), debt = debtOf(was, hash), holds = slotOf(is, key);
  step.shard = index;
  if (call.now !== undefined && call.now < last) events.push({ kind: 'clock-back', by: last - call.now });
  const comes = (call.op === 'a' || call.op === 'r') && call.cost > 0 && !held;
  if (comes && was.slots.length === was.places && answer.code !== 2) events.push({ kind: 'shard-full', places: was.places });
  for (const slot of was.slots) {
    if (slotOf(is, slot.key) || slot.key === key && call.op === 'd') continue;
    const left = debtOf(is, slot.hash);
    if (left) events.push({ kind: 'forgotten', key: slot.key, settles: left.settles });
    else events.push({ kind: was.slots.length < was.places ? 'idle' : 'makes-way', key: slot.key });
  }
  for (const owed of was.debts) {
    if (debtOf(is, owed.hash) || owed.hash === hash) continue;
    events.push({ kind: owed.settles <= now ? 'settled' : 'dropped', key: keys.get(owed.hash), settles: owed.settles });
  }
  if (call.op === 'd') events.push({ kind: answer.code === 0 ? 'removed' : 'unknown', key });
  if (call.op === 'f') events.push(answer.code === 0 ? { kind: 'refunded', key, cost: call.cost, has: step.has.get(key) } : { kind: 'unknown', key });
  if (comes && holds) events.push(debt ? backWith(debt, key, now, settings, looks) : { kind: 'new', key });
  if (call.op === 'a' || call.op === 'r') events.push(...denials(step, settings, keys, looks, { held, holds, debt }));
  if (call.op === 'p') {
    const owed = !held && debt && debt.settles > now ? owedBy(debt, key, now, settings, looks) : null;
    events.push({ kind: 'look', key, owed, known: held || debt, denied: answer.code === 1, has: looks.has, cost: call.cost });
  }
  return events;
}

// What a forgotten modem owes exactly, and that rounded up to whole requests. Both are worked out here, from the moment in the words. What the library says
// that the modem has, at the look before the call, has to be what the rounded debt leaves of its first requests.
function owedBy({ settles }, key, now, { amount, period, burst, initial }, looks) {
  const parts = (settles - now) * BigInt(amount), counted = (parts + period - 1n) / period, full = BigInt(burst);
  const left = counted < full ? full - counted : 0n, first = BigInt(Math.min(initial, burst)), has = left < first ? left : first;
  if (has !== looks.has) throw new Disagreement(`the debt of modem ${key} leaves it ${has} requests, the library says ${looks.has}`);
  return { owes: decimal(parts, period, 3), exact: parts % period === 0n, counted };
}

// A modem that comes back with a debt.
function backWith(debt, key, now, settings, looks) {
  return debt.settles <= now ? { kind: 'back-settled', key } : { kind: 'back', key, ...owedBy(debt, key, now, settings, looks) };
}

function denials(step, settings, keys, { peek, has }, { held, holds, debt }) {
  const { call, answer, now } = step, key = call.key;
  if (answer.code === 2) return [{ kind: 'never', key, cost: call.cost, burst: settings.burst }];
  if (answer.code === 3 && call.cost > settings.burst) return [{ kind: 'never', key, cost: call.cost, burst: settings.burst }];
  if (answer.code === 0) return [];
  // A modem that its own bucket denies has a place after the call. One that finds no room has none.
  if (holds) {
    const kind = answer.code === 1 ? 'own-bucket' : 'too-long', moment = answer.code === 1 ? answer.moment : peek.moment;
    return [{ kind, key, has, cost: call.cost, wait: peek.number, moment, maxWait: call.maxWait, debt: !held && !!debt }];
  }
  const found = answer.code === 1 ? reason(step, keys, now) : null;
  return [{ kind: 'no-room', key, moment: answer.moment, places: step.after.shards[step.shard].places, found, wait: answer.wait, code: answer.code }];
}

// What a call looked at that found no room: the hand, and the cursor of the debts, stand after the last of them.
function lookedAt(items, end, most) {
  const count = Math.min(most, items.length), first = Number(end) + items.length - count;
  return Array.from({ length: count }, (_, i) => items[(first + i) % items.length]);
}

// Whose bucket is full, or whose debt has settled, at the moment that a modem without room is told: one of 32 modems and 8 debts that the call looked at.
function reason({ after, shard, full, answer }, keys, now) {
  const { slots, debts, hand, cursor } = after.shards[shard];
  const slot = lookedAt(slots, hand, 32).find(({ key }) => full.get(key) === answer.moment);
  if (slot) return { key: slot.key, what: 'full' };
  const debt = lookedAt(debts, cursor, 8).find(({ settles }) => settles === answer.moment);
  if (debt) return { key: keys.get(debt.hash), what: 'settled' };
  return answer.wait === 1000000n ? { what: 'least' } : null;
}

// Which sentences stand out: they say why an arrow is missing, or what was forgotten.
export const STRONG = new Set(['no-room', 'own-bucket', 'too-long', 'never', 'forgotten', 'dropped', 'clock-back']);

// The sentence of an event. `name` names a modem.
export function sentence(event, name) {
  const modem = event.key === undefined ? 'A modem' : `Modem ${name(event.key)}`;
  const the = event.key === undefined ? 'a modem' : `modem ${name(event.key)}`;
  switch (event.kind) {
    case 'clock-back': return `The clock was set back by ${showTime(event.by)}.`;
    case 'shard-full': return `The shard is full: ${allOf(event.places)} taken.`;
    case 'forgotten': return `${modem} is forgotten. Its debt is kept until ${showTime(event.settles)}.`;
    case 'makes-way': return `${modem} has all its requests back. It is forgotten and owes nothing.`;
    case 'idle': return `${modem} was idle and has all its requests back. It is forgotten and owes nothing.`;
    case 'settled': return `The debt of ${the} has settled.`;
    case 'dropped': return `The debt of ${the} is dropped to make room (when-full is 1).`;
    case 'removed': return `${modem} is forgotten as asked, and what it owes too.`;
    case 'unknown': return `${modem} is not known.`;
    case 'refunded': return `${modem} gives ${plural(event.cost, 'request')} back${event.has === undefined ? '' : ` and has ${event.has} now`}.`;
    case 'new': return `${modem} is new and gets a place.`;
    case 'back-settled': return `${modem} is back. Its debt has settled.`;
    case 'back': return `${modem} is back and still owes ${owing(event)}.`;
    case 'never': return `Never: ${event.cost} is more than the burst of ${event.burst}.`;
    case 'own-bucket':
      return `Its own bucket is short: ${the} has ${event.has} and wants ${event.cost}. It can have ${event.cost} at ${showTime(event.moment)}.`;
    case 'too-long': return `${modem} would have to wait ${showTime(event.wait)}, and it waits ${showTime(event.maxWait)} at most.`;
    case 'look':
      return 'A look changes nothing.' +
        (event.owed ? ` ${modem} has no place and still owes ${owing(event.owed)}.` : event.known ? '' : ` ${modem} is not known.`) +
        (event.denied ? ` It has ${event.has} and wants ${event.cost}.` : '');
    case 'no-room': return `No room for ${the}: ${takenBy(event.places)}, and the list of debts is full.${roomReason(event, name)}`;
    default: return '';
  }
}

function owing({ owes, exact, counted }) {
  return `${owes}${exact ? '' : `, counted as ${counted}`}`;
}

function allOf(places) {
  return places === 1 ? 'its only place is' : places === 2 ? 'both places are' : `all ${places} places are`;
}

// A call looks at 32 modems at most.
function takenBy(places) {
  if (places === 1) return 'the modem in the only place owes';
  return places <= 32 ? `the modems in ${places === 2 ? 'both' : `all ${places}`} places owe` : 'all places are taken, the modems that this call looked at owe';
}

function roomReason({ found, moment }, name) {
  if (!found) return '';
  if (found.what === 'least') return ` It is told the shortest wait, a millisecond.`;
  const who = found.key === undefined ? 'a modem' : `modem ${name(found.key)}`;
  const then = found.what === 'full' ? `${who} has all its requests back` : `the debt of ${who} settles`;
  return ` At ${showTime(moment)} ${then}: of those that this call looked at, the soonest.`;
}

// An answer in words.
export function answerWords({ call, answer, now }) {
  const { code, wait, moment } = answer;
  if (code === 0) {
    if (call.op === 's') return 'the store is set up';
    if (call.op === 'p') return 'would be granted';
    if (call.op === 'f' || call.op === 'd') return 'done';
    return wait > 0n ? `granted, usable in ${showTime(wait)}, at ${showTime(moment)}` : 'granted';
  }
  if (code === 1) return `not now: ask again in ${showTime(wait)}, at ${showTime(moment)}`;
  if (code === 2) return 'never: more than the burst';
  if (code === 3) return call.op === 'r' ? 'no reservation' : 'the modem is not known';
  if (code === 9) return 'not understood';
  const refused = {
    11: 'the amount is 0 or too large', 12: 'the period is 0 or too long', 13: 'the burst is 0 or too large', 14: 'too many modems or shards',
    15: 'the store is larger than the memory of the desk', 16: 'the moment is too late', 17: 'the longest wait is too long',
  };
  return `refused: ${refused[code] ?? `code ${code}`}`;
}
