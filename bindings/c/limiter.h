/* The per-modem limiter store: C interface of liblimiter.a (bindings/build), x86-64. C99 or later, or C++.
 *
 * Every key (a modem) has a token bucket. The store answers whether a request for some tokens is granted now, later, or never. It has
 * no memory, clock or lock of its own: a call gets the settings, the lent words, and the moment and the key where they matter. A store may have
 * classes, limits above the keys (a fibre node, and the hub above it): see limiter_class.
 *
 * No argument is required to be sound. Settings of any content, any moment, hash, key and cost, and words of any content are safe:
 * the call ends, touches nothing but the memory that it is lent, and either does what it says or refuses by number and changes nothing.
 * `words` and `len` have to be 64-bit words that the call may read and, unless they are const, write; while a call writes them no other
 * call may use them. Calls on const words may run side by side. NULL with length 0 is safe too: no store has 0 words, so such a
 * call is refused as LIMITER_BAD_MEMORY, unless its settings are refused first. The list of debts that limiter_debts fills is lent likewise.
 *
 * Give all calls on the same words the same settings; only then do the words mean what they should. The words do not remember their
 * settings, so nothing refuses others.
 *
 * bindings/README.md has a table of what a server does at each code, and the advice on shards.
 */
#ifndef LIMITER_H
#define LIMITER_H

#include <stddef.h>
#include <stdint.h>

/* The version of this interface. A change that a caller has to know of raises the minor number while the major one is 0. */
#define LIMITER_VERSION_MAJOR 0
#define LIMITER_VERSION_MINOR 9
#define LIMITER_VERSION_PATCH 0
#define LIMITER_VERSION "0.9.0"
/* The same as one number: 65,536 times the major number, 256 times the minor one, and the patch. */
#define LIMITER_VERSION_NUMBER 0x000900

#ifdef __cplusplus
extern "C" {
#endif

/* The version of the library that is linked, as LIMITER_VERSION_NUMBER has it. The name has the major and the minor number in it: a library of
 * another minor version does not define it. Every object that is compiled with this header refers to it, so header and library of two
 * versions do not link ("undefined reference to limiter_version_0_9"). The patch may differ. */
uint32_t limiter_version_0_9(void);
#if defined(__has_attribute)
#if __has_attribute(retain)
static uint32_t (*const limiter_version_needed)(void) __attribute__((used, retain)) = limiter_version_0_9;
#define LIMITER_VERSION_IS_NEEDED
#endif
#endif
#if defined(__GNUC__) && !defined(LIMITER_VERSION_IS_NEEDED)
static uint32_t (*const limiter_version_needed)(void) __attribute__((used)) = limiter_version_0_9;
#endif
#undef LIMITER_VERSION_IS_NEEDED

/* The version of the library that is linked, for a log. */
static inline uint32_t limiter_version(void)
{
    return limiter_version_0_9();
}

/* What a store is set up with. Times are in nanoseconds. A flag is set if it is not 0. A value whose flag is not set is not read: write settings
 * with the functions below, which set both. Settings that are written field by field begin with `= {0}`, in C++ `= limiter_settings()`, so that
 * a field of a later version is not left unset. */
typedef struct limiter_settings {
    uint64_t period;      /* the time in which `amount` tokens come back: 1 to 2^46 */
    uint64_t max_keys;    /* the keys to make room for: 0 to 65,536; each shard has room for an equal share, rounded up, at least 1 */
    uint64_t shards;      /* the shards asked for: 0 to 64; the number is first raised to max_keys / 16,384, rounded up, and at least 1, and then
                             rounded up to a power of two. bindings/README.md ("Shards") says how many to ask for */
    uint64_t idle;        /* a full bucket that was idle for this long may be forgotten; read only if has_idle is set */
    uint32_t closed;      /* set: there is no rate and only tries of cost 0 are granted; amount, period, burst and initial are not read */
    uint32_t amount;      /* tokens that come back in a period: 1 to 65,535 */
    uint32_t has_burst;   /* not set: the burst is the amount */
    uint32_t burst;       /* the most tokens in a bucket: 1 to 65,535; read only if has_burst is set */
    uint32_t has_initial; /* not set: a new bucket is full */
    uint32_t initial;     /* the tokens in a new bucket, cut to the burst; read only if has_initial is set */
    uint32_t has_idle;    /* not set: no key is forgotten for being idle */
    uint32_t forget_debt; /* when a new key needs a slot and its shard cannot keep the debt of the key that would go: not set, the new key is turned
                             away; set, a debt is forgotten */
    uint32_t classes;     /* how many classes the store has: 0 to 64. It counts in the words of every call, 2 for each class. The calls that take a table
                             of classes count the classes of the table instead, and limiter_set_up and limiter_clear take 0. Only the
                             calls with a table refuse more than 64 */
} limiter_settings;

/* `amount` tokens in every `period_ns`, for up to `max_keys` keys in one shard. The burst is the amount, and a new bucket is full. */
static inline limiter_settings limiter_settings_of(uint32_t amount, uint64_t period_ns, uint64_t max_keys)
{
    limiter_settings s = { 0, 0, 0, 0, 0, 0, 0, 0, 0, 0, 0, 0, 0 };
    s.amount = amount;
    s.period = period_ns;
    s.max_keys = max_keys;
    s.shards = 1;
    return s;
}

/* A closed limiter: it grants a cost of 0 alone. */
static inline limiter_settings limiter_closed_settings(uint64_t max_keys)
{
    limiter_settings s = limiter_settings_of(0, 0, max_keys);
    s.closed = 1;
    return s;
}

/* The same settings with at most `burst` tokens in a bucket, */
static inline limiter_settings limiter_with_burst(limiter_settings s, uint32_t burst)
{
    s.has_burst = 1;
    s.burst = burst;
    return s;
}

/* with `initial` tokens in a new bucket, */
static inline limiter_settings limiter_with_initial(limiter_settings s, uint32_t initial)
{
    s.has_initial = 1;
    s.initial = initial;
    return s;
}

/* with an idle time, */
static inline limiter_settings limiter_with_idle(limiter_settings s, uint64_t idle_ns)
{
    s.has_idle = 1;
    s.idle = idle_ns;
    return s;
}

/* with this number of shards, */
static inline limiter_settings limiter_with_shards(limiter_settings s, uint64_t shards)
{
    s.shards = shards;
    return s;
}

/* with the rule that a full shard forgets a debt rather than turn a new key away, */
static inline limiter_settings limiter_forgetting_debts(limiter_settings s)
{
    s.forget_debt = 1;
    return s;
}

/* and for a store with a table of this many classes. */
static inline limiter_settings limiter_with_classes(limiter_settings s, uint32_t classes)
{
    s.classes = classes;
    return s;
}

/* A class: a limit above the keys, with one bucket for all keys that ask through it. A table is an array of classes, numbered from 0. The chain of a class is
 * the class, its parent, the parent's parent and so on. A try through a class is granted if the key's bucket and every bucket on the chain grant it.
 *
 * Times are in nanoseconds. A flag is set if it is not 0, and a value whose flag is not set is not read: write classes with the functions below. The numbers
 * have 64 bits, so that none is cut. There are no initial tokens: the buckets of classes begin full. */
typedef struct limiter_class {
    uint64_t amount;     /* tokens that come back in a period: 1 to 65,535 */
    uint64_t period;     /* the time in which `amount` tokens come back: 1 to 2^46 */
    uint64_t has_burst;  /* not set: the burst is the amount */
    uint64_t burst;      /* the most tokens in the bucket: 1 to 65,535; read only if has_burst is set */
    uint64_t has_parent; /* not set: no class is above this one */
    uint64_t parent;     /* the number of the class above, which may stand before or after this one; read only if has_parent is set */
} limiter_class;

/* A class of `amount` tokens in every `period_ns`, with no parent. The burst is the amount. */
static inline limiter_class limiter_class_of(uint64_t amount, uint64_t period_ns)
{
    limiter_class c = { 0, 0, 0, 0, 0, 0 };
    c.amount = amount;
    c.period = period_ns;
    return c;
}

/* The same class with at most `burst` tokens in its bucket, */
static inline limiter_class limiter_class_with_burst(limiter_class c, uint64_t burst)
{
    c.has_burst = 1;
    c.burst = burst;
    return c;
}

/* and below the class of the number `parent`. */
static inline limiter_class limiter_class_with_parent(limiter_class c, uint64_t parent)
{
    c.has_parent = 1;
    c.parent = parent;
    return c;
}

/* An answer. */
typedef struct limiter_reply {
    uint64_t code;   /* one of the codes below */
    uint64_t number; /* a wait in ns, tokens, or a count of tries, of keys or of debts, as the call says; else 0 */
    uint64_t moment; /* of a grant and of a retry: now + the wait, when the tokens may be used, or when to try again. Of all
                        other answers 0. It can be after 2^62, the last moment at which a call is taken, and is held to 2^64 - 1 */
} limiter_reply;

/* The identity of a modem. */
typedef struct limiter_identity {
    uint64_t code; /* LIMITER_DONE, or LIMITER_BAD_ADDRESS or LIMITER_GROUP_ADDRESS */
    uint64_t hash; /* the hash of the address; 0 where it is refused */
    uint64_t key;  /* its key; 0 where it is refused */
} limiter_identity;

/* A debt: what the store keeps of a key that it forgot before its bucket was full. It keeps the hash and not the key. */
typedef struct limiter_debt {
    uint64_t hash;       /* the hash of the key */
    uint64_t settles_at; /* the moment at which the debt settles: the bucket would be full. It can be after 2^62 */
} limiter_debt;

/* The layout that the library has. */
#if defined(__cplusplus) && __cplusplus >= 201103L
#define LIMITER_ASSERT(what, holds) static_assert(holds, "limiter: " #what)
#elif defined(__STDC_VERSION__) && __STDC_VERSION__ >= 201112L
#define LIMITER_ASSERT(what, holds) _Static_assert(holds, "limiter: " #what)
#else
#define LIMITER_ASSERT(what, holds) typedef char limiter_assert_##what[(holds) ? 1 : -1]
#endif
#define LIMITER_OFFSET(type, field, bytes) LIMITER_ASSERT(type##_##field, offsetof(limiter_##type, field) == (bytes))
LIMITER_ASSERT(size_t, sizeof(size_t) == 8);
LIMITER_ASSERT(settings, sizeof(limiter_settings) == 72);
LIMITER_OFFSET(settings, period, 0);
LIMITER_OFFSET(settings, max_keys, 8);
LIMITER_OFFSET(settings, shards, 16);
LIMITER_OFFSET(settings, idle, 24);
LIMITER_OFFSET(settings, closed, 32);
LIMITER_OFFSET(settings, amount, 36);
LIMITER_OFFSET(settings, has_burst, 40);
LIMITER_OFFSET(settings, burst, 44);
LIMITER_OFFSET(settings, has_initial, 48);
LIMITER_OFFSET(settings, initial, 52);
LIMITER_OFFSET(settings, has_idle, 56);
LIMITER_OFFSET(settings, forget_debt, 60);
LIMITER_OFFSET(settings, classes, 64);
LIMITER_ASSERT(class, sizeof(limiter_class) == 48);
LIMITER_OFFSET(class, amount, 0);
LIMITER_OFFSET(class, period, 8);
LIMITER_OFFSET(class, has_burst, 16);
LIMITER_OFFSET(class, burst, 24);
LIMITER_OFFSET(class, has_parent, 32);
LIMITER_OFFSET(class, parent, 40);
LIMITER_ASSERT(reply, sizeof(limiter_reply) == 24);
LIMITER_OFFSET(reply, code, 0);
LIMITER_OFFSET(reply, number, 8);
LIMITER_OFFSET(reply, moment, 16);
LIMITER_ASSERT(identity, sizeof(limiter_identity) == 24);
LIMITER_OFFSET(identity, code, 0);
LIMITER_OFFSET(identity, hash, 8);
LIMITER_OFFSET(identity, key, 16);
LIMITER_ASSERT(debt, sizeof(limiter_debt) == 16);
LIMITER_OFFSET(debt, hash, 0);
LIMITER_OFFSET(debt, settles_at, 8);
#undef LIMITER_OFFSET
#undef LIMITER_ASSERT

/* What a reply's `code` can be. Compare it with these names. Codes above 10 are refusals: 10 and the number of the refusal.
 *
 * A call is refused for the first thing that is wrong, in the order 1 to 7 for most calls. A call by address is refused for its address (11, 12) before
 * that. A call with a table of classes looks at the table after that, so that 1 to 3 come again, for the rates of the classes: limiter_class_set_up has the
 * order. limiter_debts looks at the shard after 6: 16 for its number, 5 again for its count of debts, then 17. A conversion is refused as 1 to 5, 18 and 19. */
enum {
    LIMITER_DONE = 0,           /* granted, from moment on; or accepted, known, counted */
    LIMITER_RETRY = 1,          /* not now; number is the wait in ns, and moment when it is over */
    LIMITER_IMPOSSIBLE = 2,     /* never: the cost is over the burst, the key's or that of a class on the chain, or the limiter is closed */
    LIMITER_NONE = 3,           /* no reservation; or the key is unknown */

    LIMITER_BAD_AMOUNT = 11,    /* refused as 1: the amount is not 1 to 65,535; of the settings, or of a class */
    LIMITER_BAD_PERIOD = 12,    /* refused as 2: the period is not 1 to 2^46 ns; of the settings, or of a class */
    LIMITER_BAD_BURST = 13,     /* refused as 3: the burst is not 1 to 65,535; of the settings, or of a class */
    LIMITER_BAD_SIZES = 14,     /* refused as 4: max_keys over 65,536, over 4,096 for a conversion, or shards over 64 */
    LIMITER_BAD_MEMORY = 15,    /* refused as 5: another number of words than the settings ask for: limiter_words(s), where s.classes is at most 64; for
                                   limiter_set_up and limiter_clear that with s.classes 0; for a call with a table that of its classes. Or the count of
                                   slots or of debts of the key's shard is more than the shard can hold; or the total of slots is less than the count of
                                   slots of the key's shard, or more than all shards can hold. limiter_length looks at the total alone, for the last of these.
                                   limiter_debts looks at the count of debts of its shard alone. Set-up and clear look at none of them. A conversion looks at
                                   the lengths of both memories, at the counts of every shard of its source and, going back, at all indexes and the total */
    LIMITER_BAD_MOMENT = 16,    /* refused as 6: now is after 2^62 ns */
    LIMITER_BAD_MAX_WAIT = 17,  /* refused as 7: max_wait is over 2^46 ns */
    LIMITER_BAD_ADDRESS = 21,   /* refused as 11: the address is not six bytes */
    LIMITER_GROUP_ADDRESS = 22, /* refused as 12: the address is that of a group: the lowest bit of its first byte is set */
    LIMITER_BAD_BUFFER = 23,    /* refused as 13: the buffer is shorter than the line */
    LIMITER_BAD_CLASS = 24,     /* refused as 14: more than 64 classes; or a parent, or the class of a try, that is not in the table */
    LIMITER_BAD_CHAIN = 25,     /* refused as 15: a chain of parents that does not end within 8 classes, the first included; a loop is one */
    LIMITER_BAD_SHARD = 26,     /* refused as 16: the store has no shard of this number */
    LIMITER_BAD_RECORDS = 27,   /* refused as 17: fewer records are lent than there are debts to write */
    LIMITER_TWINS = 28,         /* refused as 18, by a conversion: a shard of the source has two slots of one hash and key, or two debts of one hash */
    LIMITER_USED_PAST = 29      /* refused as 19, by a conversion: among the slots or the debts of the source a word past a count is not 0 */
};

enum {
    LIMITER_LONGEST_LINE = 76, /* the bytes of the longest desk line that is written, LF counted */
    LIMITER_MOST_CLASSES = 64, /* the most classes of a table */
    LIMITER_LONGEST_CHAIN = 8  /* the most classes of a chain, the first included */
};

/* Whether a code is a refusal: the call did nothing. Every code from 11 on is one, also one that a later version adds. */
static inline int limiter_is_refused(uint64_t code)
{
    return code > 10;
}

/* What a code says, for a log. */
static inline const char *limiter_code_text(uint64_t code)
{
    switch (code) {
    case LIMITER_DONE: return "granted or done";
    case LIMITER_RETRY: return "not now";
    case LIMITER_IMPOSSIBLE: return "never: the cost is over a burst, or the limiter is closed";
    case LIMITER_NONE: return "no reservation, or an unknown key";
    case LIMITER_BAD_AMOUNT: return "the amount is not 1 to 65,535";
    case LIMITER_BAD_PERIOD: return "the period is not 1 to 2^46 ns";
    case LIMITER_BAD_BURST: return "the burst is not 1 to 65,535";
    case LIMITER_BAD_SIZES: return "more than 65,536 keys, 4,096 in a conversion, or 64 shards";
    case LIMITER_BAD_MEMORY: return "the words are not those of a store with these settings";
    case LIMITER_BAD_MOMENT: return "the moment is after 2^62 ns";
    case LIMITER_BAD_MAX_WAIT: return "the longest wait is over 2^46 ns";
    case LIMITER_BAD_ADDRESS: return "the address is not six bytes";
    case LIMITER_GROUP_ADDRESS: return "the address is that of a group";
    case LIMITER_BAD_BUFFER: return "the buffer is shorter than the line";
    case LIMITER_BAD_CLASS: return "more than 64 classes, or a class that is not in the table";
    case LIMITER_BAD_CHAIN: return "a chain of parents that does not end within 8 classes";
    case LIMITER_BAD_SHARD: return "the store has no shard of this number";
    case LIMITER_BAD_RECORDS: return "fewer records than there are debts to write";
    case LIMITER_TWINS: return "two slots of one hash and key, or two debts of one hash";
    case LIMITER_USED_PAST: return "a word past a count is not 0";
    default: return "a code that this header does not know";
    }
}

/* How many words to lend for these settings: at least 1, or 0 for sizes that are refused (LIMITER_BAD_SIZES) and for more than 64 classes. It follows from
 * max_keys, shards and classes alone; where only the rate is refused it is what it would be with another rate. For limiter_set_up, limiter_clear and the
 * conversions ask with s.classes 0. */
uint64_t limiter_words(limiter_settings s);

/* A hash of a key, for callers who have none of their own: FNV-1a over its eight bytes, lowest first. It has no secret. */
uint64_t limiter_key_hash(uint64_t key);

/* In all calls below:
 *
 * `words` and `len` are the lent memory.
 *
 * `hash` and `key` together are a key's identity. The hash is the caller's, the same at every call. Its bits 40 to 45 choose the shard, and its
 * lowest bits the place in the shard's index, so all of these have to vary from key to key. A hash of 32 bits, or the key itself, has 0 in bits 40
 * to 45: then one shard gets all keys, no call is refused for it, and modems are turned away while the other shards are empty. You notice it
 * by limiter_length: with 64 shards it stays at max_keys / 64 however many modems ask. Where you have only such a number, give it to
 * limiter_key_hash. Keys with one hash share a remembered debt, so use a hash with a secret where strangers choose the keys.
 *
 * `now` is a moment in ns on a clock of the caller's, up to 2^62.
 *
 * `cost` has 32 bits. C cuts a wider number without a word: a cost of 2^32 becomes 0, is granted and takes nothing. Compare such a number
 * with UINT32_MAX first; gcc and clang find the place with -Wconversion. */

/* Makes the words an empty store without classes, whatever s.classes says. 0, or refused as 1 to 5. */
limiter_reply limiter_set_up(limiter_settings s, uint64_t *words, size_t len);

/* Takes `cost` tokens if they are there now. 0 granted, and `moment` is now, for a cost of 0 too; 1 retry after `number` ns, at
 * `moment`; 2 impossible; or refused as 1 to 6. A retry of a new key can also mean that there is no room for it: room is expected
 * at `moment`. A peek tells the two apart: it answers 0 where only room is missing. */
limiter_reply limiter_try(limiter_settings s, uint64_t *words, size_t len, uint64_t now, uint64_t hash, uint64_t key, uint32_t cost);

/* Takes `cost` tokens if they will be there within `max_wait` ns. 0 granted, to be used after `number` ns, at `moment`; 3 none, on a closed
 * limiter for a cost of 0 too; or refused as 1 to 7. 3 means too long a wait, no room, or a cost over the burst, and has no wait: ask limiter_peek
 * for the wait. */
limiter_reply limiter_reserve(limiter_settings s, uint64_t *words, size_t len, uint64_t now, uint64_t hash, uint64_t key, uint32_t cost,
                              uint64_t max_wait);

/* What the key's bucket would answer to a try, changing nothing. As limiter_try, `moment` too, but it says nothing of room. */
limiter_reply limiter_peek(limiter_settings s, const uint64_t *words, size_t len, uint64_t now, uint64_t hash, uint64_t key,
                           uint32_t cost);

/* The tokens that the key has now. 0 with `number` tokens, or refused as 1 to 6. */
limiter_reply limiter_available(limiter_settings s, const uint64_t *words, size_t len, uint64_t now, uint64_t hash, uint64_t key);

/* How many tries of the key its own bucket has answered with 1 (retry), from the call on that gave the key its slot. That call counts too, if it was a
 * try that was answered so. 0 with `number` tries, at most 2^32 - 1, where the count stops; or refused as 1 to 5, as limiter_remove is. It takes no
 * moment, and a closed limiter answers it too.
 *
 * These do not count: a reservation, a peek, a granted try, a try of a cost over the burst, a try through a class that only a class
 * denied, and a retry that means that there is no room. A grant or a
 * refund leaves the count as it is. The count goes with the slot: a key that the store has forgotten (evicted, idle, removed, cleared) has 0, also where
 * its debt is remembered. When it comes back it is counted anew, from the call that brings it back. So 0 does not say that the key has not tried. */
limiter_reply limiter_turned_away(limiter_settings s, const uint64_t *words, size_t len, uint64_t hash, uint64_t key);

/* Gives `cost` tokens back. 0 known, 3 unknown, or refused as 1 to 5. */
limiter_reply limiter_refund(limiter_settings s, uint64_t *words, size_t len, uint64_t hash, uint64_t key, uint32_t cost);

/* Forgets a key, and the debt that is remembered for its hash. 0 known, 3 unknown, or refused as 1 to 5. */
limiter_reply limiter_remove(limiter_settings s, uint64_t *words, size_t len, uint64_t hash, uint64_t key);

/* Forgets all keys and debts of a store without classes, whatever s.classes says. 0, or refused as 1 to 5: as 5 on the words of a store with classes, for
 * which limiter_class_clear is. */
limiter_reply limiter_clear(limiter_settings s, uint64_t *words, size_t len);

/* The number of keys that have a slot: it stands in the first word, so the call takes the same time for any number of shards, and on
 * damaged words it is what stands there. 0 with `number` keys, or
 * refused as 1 to 5.
 *
 * It is also the check of words that were saved and loaded again: it refuses settings out of range, another number of words, and a total of
 * slots that is more than there is room for. It looks at nothing else: not at other settings, which no call can tell, and not at any other word.
 * Of the 84,544 bits of a full store for 100 modems in 4 shards it notices 61 when one is flipped. So save the settings and a checksum with the words,
 * and compare both before you use the words: bindings/c/save.c does. Save the table of classes too, if there is one. Words that an earlier version
 * saved are fewer, and are refused as 5. The store is then set up anew, and all keys and debts are forgotten. */
limiter_reply limiter_length(limiter_settings s, const uint64_t *words, size_t len);

/* Who is still in debt? Lists the debts of one shard that settle after `now`, strictly: a debt that settles at `now` has settled. They are written over the
 * first records of a lent list, in the order of the shard's ledger, which is neither that of the moments nor that of the hashes. 0 with `number` records
 * written. The records past them stay, and no word of the store changes. The debts of a closed limiter are listed too. With a rate, a key of a
 * listed hash that comes back at `now` does not find its bucket full.
 *
 * `records` and `count` are the list: an array of `count` records that the call may write, aligned to 8 bytes. It must not lie in `words`, and no one else may
 * use it during the call. Records of any content are safe. NULL with count 0 is safe too. A shard has room for as many debts as keys: max_keys divided by the
 * shards in use, rounded up, and at least 1. A list of so many records is always enough. A refusal as 17 does not say how many are missing.
 *
 * `shard` counts from 0. The shards in use are those asked for, raised and rounded up as limiter_settings says. To list a whole store begin at 0 and go on
 * until LIMITER_BAD_SHARD; nobody may write the words in between.
 *
 * Refused, in this order: as 1 to 4; 5 for the number of words; 6; 16 if `shard` is not below the shards in use; 5 if the shard's count of debts is more than
 * the shard can hold; 17 if the list has fewer records than are to be written. Counts of slots and the total are not looked at. A refused call writes no
 * record. */
limiter_reply limiter_debts(limiter_settings s, const uint64_t *words, size_t len, uint64_t now, uint64_t shard, limiter_debt *records, size_t count);

/* Limits above the keys: a node, and the hub above it. In the calls below `classes` and `count` are the table: an array of `count` classes, which is only read
 * and must not lie in `words`. NULL with count 0 is safe: a store without classes. The table belongs to the settings: give all calls on the same words the
 * same one. These three calls take the number of classes from the table and do not read s.classes. All other calls on the words are given settings with
 * s.classes = count (limiter_with_classes), and take no table; they neither ask nor charge a class. The buckets of the classes are never forgotten.
 *
 * The library's own functions take the table as words, 6 for each class. The three inline functions below count classes and call them. */
limiter_reply limiter_table_set_up(limiter_settings s, const uint64_t *table, size_t table_len, uint64_t *words, size_t len);
limiter_reply limiter_table_clear(limiter_settings s, const uint64_t *table, size_t table_len, uint64_t *words, size_t len);
limiter_reply limiter_table_try(limiter_settings s, const uint64_t *table, size_t table_len, uint64_t *words, size_t len, uint64_t now, uint64_t hash,
                                uint64_t key, uint64_t named, uint32_t cost);

/* The words of a table of `count` classes. More classes than memory can hold stay too many: the call is refused as 5, if not before. */
static inline size_t limiter_table_words(size_t count)
{
    const size_t most = PTRDIFF_MAX / sizeof(uint64_t);
    return count > most / 6 ? most : 6 * count;
}

/* Makes the words an empty store with these classes, whose buckets are full. 0, or refused, in this order: as 1 to 4; 5 for the number of words; 14 for more
 * than 64 classes; 1 to 3 for the rate of a class, lower class first, also if the limiter is closed; 14 for a parent that is not in the table; 15 for a chain
 * that does not end within 8 classes. */
static inline limiter_reply limiter_class_set_up(limiter_settings s, const limiter_class *classes, size_t count, uint64_t *words, size_t len)
{
    return limiter_table_set_up(s, (const uint64_t *)classes, limiter_table_words(count), words, len);
}

/* Forgets all keys and debts, and fills the buckets of the classes. 0, or refused as limiter_class_set_up is. */
static inline limiter_reply limiter_class_clear(limiter_settings s, const limiter_class *classes, size_t count, uint64_t *words, size_t len)
{
    return limiter_table_clear(s, (const uint64_t *)classes, limiter_table_words(count), words, len);
}

/* Takes `cost` tokens from the key's bucket and from every bucket on the chain of the class `named`, if all have them now; else from none. 0 granted; 1 retry
 * after `number` ns, the longest of their waits, at `moment`; 2 impossible: the cost is over the key's burst or over one on the chain, or the limiter is
 * closed. A cost of 0 is granted and changes nothing, on a closed limiter too. A key without room is
 * answered 1 before the classes are asked, as in limiter_try. limiter_turned_away counts the try if the key's own bucket denied it, and not if only a class
 * did. A refund gives nothing back to a class.
 *
 * Refused as 1 to 6 as limiter_try is; then for the whole table as limiter_class_set_up is, from its first 14 on; last as 14 if `named` is not in the
 * table. */
static inline limiter_reply limiter_class_try(limiter_settings s, const limiter_class *classes, size_t count, uint64_t *words, size_t len, uint64_t now,
                                              uint64_t hash, uint64_t key, uint64_t named, uint32_t cost)
{
    return limiter_table_try(s, (const uint64_t *)classes, limiter_table_words(count), words, len, now, hash, key, named, cost);
}

/* Conversions. Boxes in the field hold the first layout of the words, without the total, the indexes and the counts of tries turned away (and without
 * classes). These calls move a store from it to the present layout without classes, and back, from one lent memory to another. The source is only read. All
 * words of the target are written, whatever stood in them; the two must not overlap. s.classes is not read: the present layout has as many words as
 * limiter_words returns with s.classes 0, and calls on the converted store have s.classes 0. The first layout is that of version 01: limiter_words_01.
 *
 * Slots, debts, hands, sweeps and cursors are carried over as they stand. Forth, the indexes and the total are built, and the counts of tries turned away
 * start at 0; back, all three are dropped. Forth and then back gives the first words again.
 *
 * 0, or refused, in this order, with neither memory changed: as 1 to 3 unless s is closed; 4, also for more than 4,096 keys; 5 for the length of either
 * memory, for a count of slots or of debts in the source that is more than its shard holds, and, going back, for an index or a total that is not as a grown
 * store has it; 18; 19. Of the target only the length is looked at.
 *
 * The time grows with the square of the keys in one shard going forth: 6 ms for 4,096 keys in one shard, 20 ms where all of these have one hash, on an AMD
 * EPYC. */
limiter_reply limiter_convert_forth(limiter_settings s, const uint64_t *source, size_t source_len, uint64_t *target, size_t target_len);
limiter_reply limiter_convert_back(limiter_settings s, const uint64_t *source, size_t source_len, uint64_t *target, size_t target_len);

/* How many words the first layout has for these settings: at least 1, or 0 for sizes that are refused and for more than 4,096 keys. */
uint64_t limiter_words_01(limiter_settings s);

/* Modems by hardware address. In the calls below `address` and `address_len` are the bytes of an address, in the order in which it is written;
 * `address` points at `address_len` bytes, which are only read and must not lie in `words`. A call is that of the same name on the modem's key:
 * the hash is FNV-1a over the six bytes, first byte first, and the key is the number with the first byte highest. A length other than 6 is refused
 * as 11, and the address of a group as 12, before anything else is looked at. NULL with length 0 is safe, and refused as 11.
 *
 * The bytes are not text. The first six characters of "00:1a:2b:3c:4d:5e" are six bytes too and are taken for an address, the same one for all
 * modems of a maker: read text with limiter_read_address first. */

/* As limiter_try; or refused as 11 or 12. */
limiter_reply limiter_modem_try(limiter_settings s, uint64_t *words, size_t len, uint64_t now, const uint8_t *address,
                                size_t address_len, uint32_t cost);

/* As limiter_reserve; or refused as 11 or 12. */
limiter_reply limiter_modem_reserve(limiter_settings s, uint64_t *words, size_t len, uint64_t now, const uint8_t *address,
                                    size_t address_len, uint32_t cost, uint64_t max_wait);

/* As limiter_peek; or refused as 11 or 12. */
limiter_reply limiter_modem_peek(limiter_settings s, const uint64_t *words, size_t len, uint64_t now, const uint8_t *address,
                                 size_t address_len, uint32_t cost);

/* As limiter_refund; or refused as 11 or 12. */
limiter_reply limiter_modem_refund(limiter_settings s, uint64_t *words, size_t len, const uint8_t *address, size_t address_len,
                                   uint32_t cost);

/* As limiter_remove; or refused as 11 or 12. */
limiter_reply limiter_modem_remove(limiter_settings s, uint64_t *words, size_t len, const uint8_t *address, size_t address_len);

/* The hash and the key that the five calls above give the modem: for limiter_available and limiter_turned_away, and to choose one of several stores. 0
 * with both, or refused as 11 or 12 with 0 and 0. */
limiter_identity limiter_modem_identity(const uint8_t *address, size_t address_len);

/* The value of a hexadecimal digit of either case; 16 of any other character. */
static inline unsigned limiter_hex_digit(char c)
{
    if (c >= '0' && c <= '9')
        return (unsigned)(c - '0');
    if (c >= 'a' && c <= 'f')
        return (unsigned)(c - 'a') + 10;
    if (c >= 'A' && c <= 'F')
        return (unsigned)(c - 'A') + 10;
    return 16;
}

/* Reads an address from text: six pairs of hexadecimal digits of either case, with `:` between each two pairs, or with `-` between each two, 17
 * characters in all. A NUL after them is not counted: give strlen(text). 1 and the six bytes in `address`, or 0 for any other text, and `address`
 * is as it was. */
static inline int limiter_read_address(const char *text, size_t text_len, uint8_t *address)
{
    uint8_t bytes[6];
    size_t i;
    if (text_len != 17 || (text[2] != ':' && text[2] != '-'))
        return 0;
    for (i = 0; i < 6; i++) {
        unsigned high = limiter_hex_digit(text[3 * i]), low = limiter_hex_digit(text[3 * i + 1]);
        if (high > 15 || low > 15 || (i < 5 && text[3 * i + 2] != text[2]))
            return 0;
        bytes[i] = (uint8_t)(16 * high + low);
    }
    for (i = 0; i < 6; i++)
        address[i] = bytes[i];
    return 1;
}

/* The line that the desk program reads as a call: the shortest, LF at the end, no NUL after it. It is written at the start of a buffer of `len` bytes. 0 with
 * `number` bytes, LF counted, and the bytes past them stay; or refused as 13, and no byte changes. NULL with length 0 is refused so. The desk hashes
 * the key with limiter_key_hash: it answers as a store of several shards does only where that store's calls have this hash too. */
limiter_reply limiter_line_try(uint8_t *buffer, size_t len, uint64_t now, uint64_t key, uint32_t cost);
limiter_reply limiter_line_peek(uint8_t *buffer, size_t len, uint64_t now, uint64_t key, uint32_t cost);
limiter_reply limiter_line_reserve(uint8_t *buffer, size_t len, uint64_t now, uint64_t key, uint32_t cost, uint64_t max_wait);
limiter_reply limiter_line_refund(uint8_t *buffer, size_t len, uint64_t key, uint32_t cost);
limiter_reply limiter_line_remove(uint8_t *buffer, size_t len, uint64_t key);

#ifdef __cplusplus
}
#endif
#endif
