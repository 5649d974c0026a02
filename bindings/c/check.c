/* What limiter.h says of any caller's arguments: no words at all, every code with its text, the version, the hash's vectors, each field of the settings
 * read as the field that it is and written by its function, the moment in every answer, and the count of tries turned away. Compiles as C99, C11 and C++.
 * Run with bindings/c/run-example. */
#include <stdio.h>
#include <stdlib.h>
#include <string.h>

#include "limiter.h"

#define SECOND UINT64_C(1000000000)
#define MOST_WORDS 860000
/* The words of a store for one key, and for two, in one shard. */
#define ONE 19
#define TWO 32

static uint64_t words[MOST_WORDS];
static int checks;

static void check(int holds, int line)
{
    if (!holds) {
        printf("check.c:%d: does not hold\n", line);
        exit(1);
    }
    checks++;
}
#define CHECK(holds) check((holds) != 0, __LINE__)

/* Whether a reply is these three numbers. */
static int tells(limiter_reply reply, uint64_t code, uint64_t number, uint64_t moment)
{
    return reply.code == code && reply.number == number && reply.moment == moment;
}

/* 2 tokens a second, one key, one shard. */
static limiter_settings small(void)
{
    return limiter_settings_of(2, SECOND, 1);
}

static uint64_t set_up_code(limiter_settings s, size_t len)
{
    return limiter_set_up(s, words, len).code;
}

/* Set up as the settings need it. */
static size_t set_up(limiter_settings s)
{
    size_t len = (size_t)limiter_words(s);
    CHECK(len > 0 && len <= MOST_WORDS);
    CHECK(set_up_code(s, len) == LIMITER_DONE);
    return len;
}

/* NULL with length 0 is refused as 5, and a bad rate before that. */
static void no_words(void)
{
    const uint64_t refused = LIMITER_BAD_MEMORY;
    limiter_settings s = small(), bad = small();
    CHECK(tells(limiter_set_up(s, NULL, 0), refused, 0, 0));
    CHECK(tells(limiter_try(s, NULL, 0, SECOND, 7, 7, 1), refused, 0, 0));
    CHECK(tells(limiter_reserve(s, NULL, 0, SECOND, 7, 7, 1, 0), refused, 0, 0));
    CHECK(tells(limiter_peek(s, NULL, 0, SECOND, 7, 7, 1), refused, 0, 0));
    CHECK(tells(limiter_available(s, NULL, 0, SECOND, 7, 7), refused, 0, 0));
    CHECK(tells(limiter_turned_away(s, NULL, 0, 7, 7), refused, 0, 0));
    CHECK(tells(limiter_refund(s, NULL, 0, 7, 7, 1), refused, 0, 0));
    CHECK(tells(limiter_remove(s, NULL, 0, 7, 7), refused, 0, 0));
    CHECK(tells(limiter_clear(s, NULL, 0), refused, 0, 0));
    CHECK(tells(limiter_length(s, NULL, 0), refused, 0, 0));
    CHECK(tells(limiter_debts(s, NULL, 0, SECOND, 0, NULL, 0), refused, 0, 0));
    bad.amount = 0;
    CHECK(limiter_length(bad, NULL, 0).code == LIMITER_BAD_AMOUNT);
    CHECK(limiter_turned_away(bad, NULL, 0, 7, 7).code == LIMITER_BAD_AMOUNT);
}

static void words_to_lend(void)
{
    limiter_settings s = small();
    CHECK(limiter_words(s) == ONE);
    s.max_keys = 4096;
    CHECK(set_up(s) == 53254);
    s.shards = 64;
    CHECK(set_up_code(s, set_up(s) + 1) == LIMITER_BAD_MEMORY);
    s.max_keys = 65537;
    CHECK(limiter_words(s) == 0 && set_up_code(s, 1) == LIMITER_BAD_SIZES);
    s = small();
    s.shards = 65;
    CHECK(limiter_words(s) == 0 && set_up_code(s, 1) == LIMITER_BAD_SIZES);
    /* The rate is not looked at. */
    s = small();
    s.amount = 0;
    CHECK(limiter_words(s) == ONE);
    /* Two words for each class. */
    CHECK(limiter_words(limiter_with_classes(s, 1)) == ONE + 2 && limiter_words(limiter_with_classes(s, 64)) == ONE + 128);
    CHECK(limiter_words(limiter_with_classes(s, 65)) == 0 && limiter_words(limiter_with_classes(s, UINT32_MAX)) == 0);
}

/* The shards asked for are first raised to max_keys / 16,384, rounded up: the keys, and then the shards and the places of each for 0, 1, 3 and 64
 * shards asked for. A store takes 1 + shards * (5 + 13 * places) words. */
static void raised_shards(void)
{
    static const uint64_t asked[4] = { 0, 1, 3, 64 };
    static const uint64_t rows[5][9] = { { 4097, 1, 4097, 1, 4097, 4, 1025, 64, 65 }, { 16384, 1, 16384, 1, 16384, 4, 4096, 64, 256 },
        { 16385, 2, 8193, 2, 8193, 4, 4097, 64, 257 }, { 32769, 4, 8193, 4, 8193, 4, 8193, 64, 513 },
        { 65536, 4, 16384, 4, 16384, 4, 16384, 64, 1024 } };
    limiter_settings s = small();
    int row, i;
    for (row = 0; row < 5; row++) {
        for (i = 0; i < 4; i++) {
            const uint64_t shards = rows[row][1 + 2 * i], places = rows[row][2 + 2 * i];
            s.max_keys = rows[row][0];
            s.shards = asked[i];
            CHECK(set_up(s) == 1 + shards * (5 + 13 * places));
            CHECK(set_up_code(s, (size_t)limiter_words(s) - 1) == LIMITER_BAD_MEMORY);
        }
    }
}

/* The eight bytes "chongo w" of the FNV authors' test suite, and keys as crates/test_fnv_vectors has them. */
static void hash_vectors(void)
{
    CHECK(limiter_key_hash(UINT64_C(0x77206f676e6f6863)) == UINT64_C(0xd1edd10b507344d0));
    CHECK(limiter_key_hash(0) == UINT64_C(12161962213042174405));
    CHECK(limiter_key_hash(7) == UINT64_C(5465015992139406178));
    CHECK(limiter_key_hash(UINT64_MAX) == UINT64_C(10157053723145373757));
}

/* The fields of the rate: each alone is bad, or changes what is answered. */
static void rate_fields(void)
{
    limiter_settings s = small();
    s.amount = 65536;
    CHECK(set_up_code(s, ONE) == LIMITER_BAD_AMOUNT);
    s = small();
    s.period = (UINT64_C(1) << 46) + 1;
    CHECK(set_up_code(s, ONE) == LIMITER_BAD_PERIOD);
    s = small();
    s.burst = 65536;
    CHECK(set_up_code(s, ONE) == LIMITER_DONE);
    s.has_burst = 1;
    CHECK(set_up_code(s, ONE) == LIMITER_BAD_BURST);
    s.closed = 1;
    CHECK(set_up_code(s, ONE) == LIMITER_DONE);
    CHECK(limiter_try(s, words, ONE, 0, 7, 7, 1).code == LIMITER_IMPOSSIBLE);
    s = small();
    s.initial = 1;
    set_up(s);
    CHECK(limiter_available(s, words, ONE, 0, 7, 7).number == 2);
    s.has_initial = 1;
    CHECK(limiter_available(s, words, ONE, 0, 7, 7).number == 1);
}

/* The other fields: what a full store does, and whom it forgets. */
static void store_fields(void)
{
    limiter_settings s = small();
    set_up(s);
    CHECK(limiter_try(s, words, ONE, 0, 7, 7, 2).code == LIMITER_DONE);
    CHECK(limiter_try(s, words, ONE, 0, 8, 8, 2).code == LIMITER_DONE);
    CHECK(limiter_try(s, words, ONE, 0, 9, 9, 2).code == LIMITER_RETRY);
    s.forget_debt = 1;
    CHECK(limiter_try(s, words, ONE, 0, 9, 9, 2).code == LIMITER_DONE);
    s = small();
    s.max_keys = 2;
    s.idle = 2 * SECOND;
    set_up(s);
    CHECK(limiter_try(s, words, TWO, 0, 7, 7, 1).code == LIMITER_DONE);
    CHECK(limiter_try(s, words, TWO, 9 * SECOND, 8, 8, 1).code == LIMITER_DONE);
    CHECK(limiter_length(s, words, TWO).number == 2);
    s.has_idle = 1;
    CHECK(limiter_try(s, words, TWO, 18 * SECOND, 9, 9, 1).code == LIMITER_DONE);
    CHECK(limiter_length(s, words, TWO).number == 1);
}

static void moments_and_waits(void)
{
    limiter_settings s = small();
    uint64_t last = UINT64_C(1) << 62, longest = UINT64_C(1) << 46;
    set_up(s);
    CHECK(tells(limiter_peek(s, words, ONE, last, 7, 7, 1), LIMITER_DONE, 0, last));
    CHECK(tells(limiter_peek(s, words, ONE, last + 1, 7, 7, 1), LIMITER_BAD_MOMENT, 0, 0));
    CHECK(tells(limiter_reserve(s, words, ONE, 1, 7, 7, 1, longest + 1), LIMITER_BAD_MAX_WAIT, 0, 0));
    CHECK(tells(limiter_reserve(s, words, ONE, 1, 7, 7, 1, longest), LIMITER_DONE, 0, 1));
    /* A wait that begins at the last moment is over after it. */
    CHECK(limiter_try(s, words, ONE, last, 7, 7, 2).code == LIMITER_DONE);
    CHECK(tells(limiter_try(s, words, ONE, last, 7, 7, 1), LIMITER_RETRY, SECOND / 2, last + SECOND / 2));
}

/* The moment of a grant is now, for a peek and a cost of 0 too, and now + the wait for a reservation; of a retry it is now + the wait. */
static void moments_told(void)
{
    const uint64_t now = 5 * SECOND, later = now + SECOND / 2;
    limiter_settings s = small();
    set_up(s);
    CHECK(tells(limiter_peek(s, words, ONE, now, 7, 7, 2), LIMITER_DONE, 0, now));
    CHECK(tells(limiter_try(s, words, ONE, now, 7, 7, 2), LIMITER_DONE, 0, now));
    CHECK(tells(limiter_try(s, words, ONE, now, 7, 7, 0), LIMITER_DONE, 0, now));
    CHECK(tells(limiter_peek(s, words, ONE, now, 7, 7, 0), LIMITER_DONE, 0, now));
    CHECK(tells(limiter_reserve(s, words, ONE, now, 7, 7, 0, 0), LIMITER_DONE, 0, now));
    CHECK(tells(limiter_try(s, words, ONE, now, 7, 7, 1), LIMITER_RETRY, SECOND / 2, later));
    CHECK(tells(limiter_peek(s, words, ONE, now, 7, 7, 1), LIMITER_RETRY, SECOND / 2, later));
    CHECK(tells(limiter_reserve(s, words, ONE, now, 7, 7, 1, SECOND), LIMITER_DONE, SECOND / 2, later));
    CHECK(tells(limiter_reserve(s, words, ONE, now, 7, 7, 1, SECOND / 2), LIMITER_NONE, 0, 0));
    CHECK(tells(limiter_reserve(s, words, ONE, now, 7, 7, 3, SECOND), LIMITER_NONE, 0, 0));
    CHECK(tells(limiter_try(s, words, ONE, now, 7, 7, 3), LIMITER_IMPOSSIBLE, 0, 0));
    CHECK(tells(limiter_peek(s, words, ONE, now, 7, 7, 3), LIMITER_IMPOSSIBLE, 0, 0));
    s.closed = 1;
    CHECK(tells(limiter_try(s, words, ONE, now, 7, 7, 0), LIMITER_DONE, 0, now));
    CHECK(tells(limiter_peek(s, words, ONE, now, 7, 7, 0), LIMITER_DONE, 0, now));
    CHECK(tells(limiter_try(s, words, ONE, now, 7, 7, 1), LIMITER_IMPOSSIBLE, 0, 0));
    CHECK(tells(limiter_peek(s, words, ONE, now, 7, 7, 1), LIMITER_IMPOSSIBLE, 0, 0));
    CHECK(tells(limiter_reserve(s, words, ONE, now, 7, 7, 0, 0), LIMITER_NONE, 0, 0));
    CHECK(tells(limiter_available(s, words, ONE, now, 7, 7), LIMITER_DONE, 0, 0));
}

/* A retry for want of space: modem 7 has a debt, 8 the slot, and both are settled a second after `now`. The wait is at least 1 ms. */
static void moments_for_space(void)
{
    const uint64_t now = 5 * SECOND, late = now + SECOND - 1000, least = 1000000;
    limiter_settings s = small();
    set_up(s);
    CHECK(tells(limiter_try(s, words, ONE, now, 7, 7, 2), LIMITER_DONE, 0, now));
    CHECK(tells(limiter_try(s, words, ONE, now, 8, 8, 2), LIMITER_DONE, 0, now));
    CHECK(tells(limiter_try(s, words, ONE, now, 9, 9, 2), LIMITER_RETRY, SECOND, now + SECOND));
    CHECK(tells(limiter_try(s, words, ONE, late, 9, 9, 2), LIMITER_RETRY, least, late + least));
    CHECK(tells(limiter_reserve(s, words, ONE, late, 9, 9, 2, SECOND), LIMITER_NONE, 0, 0));
}

/* No other answer has a moment. */
static void no_moments(void)
{
    limiter_settings s = small();
    CHECK(tells(limiter_set_up(s, words, ONE), LIMITER_DONE, 0, 0));
    CHECK(tells(limiter_try(s, words, ONE, SECOND, 7, 7, 1), LIMITER_DONE, 0, SECOND));
    CHECK(tells(limiter_available(s, words, ONE, SECOND, 7, 7), LIMITER_DONE, 1, 0));
    CHECK(tells(limiter_turned_away(s, words, ONE, 7, 7), LIMITER_DONE, 0, 0));
    CHECK(tells(limiter_length(s, words, ONE), LIMITER_DONE, 1, 0));
    CHECK(tells(limiter_refund(s, words, ONE, 7, 7, 1), LIMITER_DONE, 0, 0));
    CHECK(tells(limiter_refund(s, words, ONE, 8, 8, 1), LIMITER_NONE, 0, 0));
    CHECK(tells(limiter_remove(s, words, ONE, 7, 7), LIMITER_DONE, 0, 0));
    CHECK(tells(limiter_remove(s, words, ONE, 7, 7), LIMITER_NONE, 0, 0));
    CHECK(tells(limiter_clear(s, words, ONE), LIMITER_DONE, 0, 0));
}

/* Whether the modem of this number, which is its hash too, was turned away so often. */
static int was_turned_away(limiter_settings s, size_t len, uint64_t modem, uint64_t times)
{
    return tells(limiter_turned_away(s, words, len, modem, modem), LIMITER_DONE, times, 0);
}

/* A try counts that the modem's own bucket answers with a retry. No other call does. */
static void counted_tries(void)
{
    limiter_settings s = small();
    set_up(s);
    CHECK(was_turned_away(s, ONE, 7, 0));
    CHECK(limiter_try(s, words, ONE, 0, 7, 7, 2).code == LIMITER_DONE);
    CHECK(was_turned_away(s, ONE, 7, 0));
    CHECK(limiter_try(s, words, ONE, 0, 7, 7, 1).code == LIMITER_RETRY);
    CHECK(was_turned_away(s, ONE, 7, 1));
    CHECK(limiter_try(s, words, ONE, 0, 7, 7, 2).code == LIMITER_RETRY);
    CHECK(was_turned_away(s, ONE, 7, 2));
    CHECK(limiter_peek(s, words, ONE, 0, 7, 7, 1).code == LIMITER_RETRY);
    CHECK(limiter_reserve(s, words, ONE, 0, 7, 7, 1, 0).code == LIMITER_NONE);
    CHECK(limiter_reserve(s, words, ONE, 0, 7, 7, 1, SECOND).code == LIMITER_DONE);
    CHECK(limiter_try(s, words, ONE, 0, 7, 7, 3).code == LIMITER_IMPOSSIBLE);
    CHECK(limiter_try(s, words, ONE, 0, 7, 7, 0).code == LIMITER_DONE);
    CHECK(limiter_refund(s, words, ONE, 7, 7, 2).code == LIMITER_DONE);
    CHECK(limiter_try(s, words, ONE, 0, 7, 7, 1).code == LIMITER_DONE);
    CHECK(was_turned_away(s, ONE, 7, 2));
    /* Another key of the same hash, and another hash of the same key. */
    CHECK(tells(limiter_turned_away(s, words, ONE, 7, 8), LIMITER_DONE, 0, 0));
    CHECK(tells(limiter_turned_away(s, words, ONE, 8, 7), LIMITER_DONE, 0, 0));
    /* A closed limiter is looked at too. It turns nobody away for a wait. */
    s.closed = 1;
    CHECK(limiter_try(s, words, ONE, 0, 7, 7, 1).code == LIMITER_IMPOSSIBLE);
    CHECK(was_turned_away(s, ONE, 7, 2));
    CHECK(limiter_clear(s, words, ONE).code == LIMITER_DONE);
    CHECK(was_turned_away(s, ONE, 7, 0));
}

/* The call that gives a modem its slot counts, if it is a try. */
static void counted_from_the_first(void)
{
    limiter_settings s = limiter_with_initial(small(), 1);
    set_up(s);
    CHECK(limiter_try(s, words, ONE, 0, 7, 7, 2).code == LIMITER_RETRY);
    CHECK(was_turned_away(s, ONE, 7, 1));
    set_up(s);
    CHECK(limiter_reserve(s, words, ONE, 0, 7, 7, 2, 0).code == LIMITER_NONE);
    CHECK(limiter_length(s, words, ONE).number == 1 && was_turned_away(s, ONE, 7, 0));
}

/* The count goes with the slot: modem 7 leaves a debt and comes back, is removed, and is forgotten for being idle. A retry for want of space, which
 * modem 9 gets, counts nowhere. */
static void counted_while_known(void)
{
    limiter_settings s = small();
    set_up(s);
    CHECK(limiter_try(s, words, ONE, 0, 7, 7, 2).code == LIMITER_DONE);
    CHECK(limiter_try(s, words, ONE, 0, 7, 7, 1).code == LIMITER_RETRY);
    CHECK(limiter_try(s, words, ONE, 0, 7, 7, 1).code == LIMITER_RETRY);
    CHECK(was_turned_away(s, ONE, 7, 2));
    CHECK(limiter_try(s, words, ONE, 0, 8, 8, 2).code == LIMITER_DONE);
    CHECK(limiter_peek(s, words, ONE, 0, 7, 7, 1).code == LIMITER_RETRY && was_turned_away(s, ONE, 7, 0));
    CHECK(limiter_try(s, words, ONE, 0, 9, 9, 1).code == LIMITER_RETRY);
    CHECK(was_turned_away(s, ONE, 8, 0) && was_turned_away(s, ONE, 9, 0));
    CHECK(limiter_try(s, words, ONE, 0, 7, 7, 1).code == LIMITER_RETRY);
    CHECK(was_turned_away(s, ONE, 7, 1) && was_turned_away(s, ONE, 8, 0));
    CHECK(limiter_remove(s, words, ONE, 7, 7).code == LIMITER_DONE);
    CHECK(was_turned_away(s, ONE, 7, 0));
    s = limiter_with_idle(limiter_settings_of(2, SECOND, 2), 2 * SECOND);
    set_up(s);
    CHECK(limiter_try(s, words, TWO, 0, 7, 7, 2).code == LIMITER_DONE);
    CHECK(limiter_try(s, words, TWO, 0, 7, 7, 1).code == LIMITER_RETRY);
    CHECK(was_turned_away(s, TWO, 7, 1));
    CHECK(limiter_try(s, words, TWO, 9 * SECOND, 8, 8, 1).code == LIMITER_DONE);
    CHECK(limiter_length(s, words, TWO).number == 1 && was_turned_away(s, TWO, 7, 0));
}

/* Whether the look at the count and a removal are both refused with this code. */
static int both_refused(limiter_settings s, size_t len, uint64_t code)
{
    return tells(limiter_turned_away(s, words, len, 7, 7), code, 0, 0) && tells(limiter_remove(s, words, len, 7, 7), code, 0, 0);
}

/* The look at the count is refused as a removal is. */
static void refused_counts(void)
{
    limiter_settings s = small();
    size_t place;
    int damaged = 0;
    set_up(s);
    CHECK(both_refused(limiter_settings_of(65536, SECOND, 1), ONE, LIMITER_BAD_AMOUNT));
    CHECK(both_refused(limiter_settings_of(2, 0, 1), ONE, LIMITER_BAD_PERIOD));
    CHECK(both_refused(limiter_with_burst(s, 0), ONE, LIMITER_BAD_BURST));
    CHECK(both_refused(limiter_settings_of(2, SECOND, 65537), ONE, LIMITER_BAD_SIZES));
    CHECK(both_refused(limiter_with_shards(s, 65), ONE, LIMITER_BAD_SIZES));
    CHECK(both_refused(s, ONE - 1, LIMITER_BAD_MEMORY));
    CHECK(both_refused(s, ONE + 1, LIMITER_BAD_MEMORY));
    CHECK(both_refused(limiter_closed_settings(1), ONE + 1, LIMITER_BAD_MEMORY));
    /* The total and the counts of slots and of debts, damaged; any other word may be anything. */
    for (place = 0; place < ONE; place++) {
        uint64_t code;
        set_up(s);
        words[place] = UINT64_MAX;
        code = limiter_turned_away(s, words, ONE, 7, 7).code;
        CHECK(code == LIMITER_DONE || both_refused(s, ONE, LIMITER_BAD_MEMORY));
        damaged += code != LIMITER_DONE;
    }
    CHECK(damaged == 3);
}

/* Every code has a text of its own, and all other codes share one. The names are the codes, and those of refusals are above 10. */
static void texts(void)
{
    static const uint64_t codes[] = { LIMITER_DONE, LIMITER_RETRY, LIMITER_IMPOSSIBLE, LIMITER_NONE, LIMITER_BAD_AMOUNT, LIMITER_BAD_PERIOD,
        LIMITER_BAD_BURST, LIMITER_BAD_SIZES, LIMITER_BAD_MEMORY, LIMITER_BAD_MOMENT, LIMITER_BAD_MAX_WAIT, LIMITER_BAD_ADDRESS,
        LIMITER_GROUP_ADDRESS, LIMITER_BAD_BUFFER, LIMITER_BAD_CLASS, LIMITER_BAD_CHAIN, LIMITER_BAD_SHARD, LIMITER_BAD_RECORDS, LIMITER_TWINS,
        LIMITER_USED_PAST };
    static const uint64_t others[] = { 4, 10, 18, 20, 30, UINT64_MAX };
    const char *unknown = limiter_code_text(9);
    size_t one, other;
    for (one = 0; one < sizeof codes / sizeof *codes; one++) {
        for (other = 0; other < one; other++)
            CHECK(strcmp(limiter_code_text(codes[one]), limiter_code_text(codes[other])) != 0);
        CHECK(strcmp(limiter_code_text(codes[one]), unknown) != 0);
        CHECK(limiter_is_refused(codes[one]) == (codes[one] > LIMITER_NONE));
    }
    for (one = 0; one < sizeof others / sizeof *others; one++)
        CHECK(strcmp(limiter_code_text(others[one]), unknown) == 0);
    CHECK(limiter_is_refused(UINT64_MAX) && !limiter_is_refused(10));
}

/* The library is of this header's version, patch and all. */
static void versions(void)
{
    char text[16];
    CHECK(limiter_version() == LIMITER_VERSION_NUMBER);
    CHECK(LIMITER_VERSION_NUMBER == 65536 * LIMITER_VERSION_MAJOR + 256 * LIMITER_VERSION_MINOR + LIMITER_VERSION_PATCH);
    sprintf(text, "%d.%d.%d", LIMITER_VERSION_MAJOR, LIMITER_VERSION_MINOR, LIMITER_VERSION_PATCH);
    CHECK(strcmp(text, LIMITER_VERSION) == 0);
}

/* Whether settings are these thirteen numbers, in the order of the struct. */
static int are(limiter_settings s, const uint64_t *numbers)
{
    return s.period == numbers[0] && s.max_keys == numbers[1] && s.shards == numbers[2] && s.idle == numbers[3] && s.closed == numbers[4]
        && s.amount == numbers[5] && s.has_burst == numbers[6] && s.burst == numbers[7] && s.has_initial == numbers[8] && s.initial == numbers[9]
        && s.has_idle == numbers[10] && s.forget_debt == numbers[11] && s.classes == numbers[12];
}

/* Each function that writes settings writes its value with its flag, and no other field. */
static void written_settings(void)
{
    static const uint64_t plain[13] = { 9, 8, 1, 0, 0, 7, 0, 0, 0, 0, 0, 0, 0 }, burst[13] = { 9, 8, 1, 0, 0, 7, 1, 4, 0, 0, 0, 0, 0 },
                          initial[13] = { 9, 8, 1, 0, 0, 7, 0, 0, 1, 3, 0, 0, 0 }, idle[13] = { 9, 8, 1, 6, 0, 7, 0, 0, 0, 0, 1, 0, 0 },
                          shards[13] = { 9, 8, 5, 0, 0, 7, 0, 0, 0, 0, 0, 0, 0 }, forgetting[13] = { 9, 8, 1, 0, 0, 7, 0, 0, 0, 0, 0, 1, 0 },
                          closed[13] = { 0, 8, 1, 0, 1, 0, 0, 0, 0, 0, 0, 0, 0 }, classes[13] = { 9, 8, 1, 0, 0, 7, 0, 0, 0, 0, 0, 0, 2 };
    limiter_settings s = limiter_settings_of(7, 9, 8);
    CHECK(are(s, plain));
    CHECK(are(limiter_with_burst(s, 4), burst));
    CHECK(are(limiter_with_initial(s, 3), initial));
    CHECK(are(limiter_with_idle(s, 6), idle));
    CHECK(are(limiter_with_shards(s, 5), shards));
    CHECK(are(limiter_forgetting_debts(s), forgetting));
    CHECK(are(limiter_with_classes(s, 2), classes));
    CHECK(are(limiter_closed_settings(8), closed));
    CHECK(set_up(limiter_closed_settings(1)) == ONE);
}

/* A hash whose bits 40 to 45 are 0 fills one shard of 64, and the length stays at the places of that shard. */
static void narrow_hash(void)
{
    limiter_settings s = limiter_with_shards(limiter_settings_of(2, SECOND, 2000), 64);
    size_t len = set_up(s);
    uint64_t modem;
    for (modem = 1; modem <= 1000; modem++)
        CHECK(!limiter_is_refused(limiter_try(s, words, len, 0, modem, modem, 1).code));
    CHECK(limiter_length(s, words, len).number == 32);
    for (modem = 1; modem <= 1000; modem++)
        CHECK(limiter_try(s, words, len, SECOND, limiter_key_hash(modem), modem, 1).code == LIMITER_DONE);
    CHECK(limiter_length(s, words, len).number > 900);
}

/* Desk lines: of every kind, in buffers one byte short, just fitting and longer. */
static uint8_t buffer[LIMITER_LONGEST_LINE + 1];

static int holds(const char *line)
{
    size_t size = strlen(line);
    return memcmp(buffer, line, size) == 0 && buffer[size] == 0xee;
}

static void lines(void)
{
    const uint64_t refused = LIMITER_BAD_BUFFER;
    const uint8_t *past = buffer + 4;
    memset(buffer, 0xee, sizeof buffer);
    CHECK(tells(limiter_line_remove(NULL, 0, 7), refused, 0, 0));
    CHECK(tells(limiter_line_remove(buffer, 3, 7), refused, 0, 0) && buffer[0] == 0xee && buffer[2] == 0xee);
    CHECK(tells(limiter_line_remove(buffer, 4, 7), LIMITER_DONE, 4, 0) && holds("d 7\n") && *past == 0xee);
    CHECK(tells(limiter_line_refund(buffer, sizeof buffer, 10, 9), LIMITER_DONE, 7, 0) && holds("f 10 9\n"));
    CHECK(tells(limiter_line_try(buffer, sizeof buffer, 0, 7, 4), LIMITER_DONE, 8, 0) && holds("a 0 7 4\n"));
    CHECK(tells(limiter_line_peek(buffer, sizeof buffer, SECOND, 7, 1), LIMITER_DONE, 17, 0) && holds("p 1000000000 7 1\n"));
    CHECK(tells(limiter_line_reserve(buffer, LIMITER_LONGEST_LINE - 1, UINT64_MAX, UINT64_MAX, UINT32_MAX, UINT64_MAX), refused, 0, 0));
    CHECK(holds("p 1000000000 7 1\n"));
    CHECK(tells(limiter_line_reserve(buffer, LIMITER_LONGEST_LINE, UINT64_MAX, UINT64_MAX, UINT32_MAX, UINT64_MAX), LIMITER_DONE, 76, 0));
    CHECK(holds("r 18446744073709551615 18446744073709551615 4294967295 18446744073709551615\n"));
}

int main(void)
{
    no_words();
    words_to_lend();
    raised_shards();
    hash_vectors();
    rate_fields();
    store_fields();
    moments_and_waits();
    moments_told();
    moments_for_space();
    no_moments();
    counted_tries();
    counted_from_the_first();
    counted_while_known();
    refused_counts();
    texts();
    versions();
    written_settings();
    narrow_hash();
    lines();
    printf("%d checks hold\n", checks);
    return 0;
}
