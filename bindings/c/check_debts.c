/* What limiter.h says of the list of debts: which debts it has and in which order, that no other record and no word changes, who is refused and in which
 * order. Words and records lie between pages that nobody may touch, and the words may only be read. Compiles as C99, C11 and C++. Run with
 * bindings/c/run-example. */
#define _DEFAULT_SOURCE
#include <stdio.h>
#include <stdlib.h>
#include <string.h>
#include <sys/mman.h>

#include "limiter.h"

#define SECOND UINT64_C(1000000000)
#define LAST (UINT64_C(1) << 62)
#define MOST_WORDS 2048
#define MOST_RECORDS 64
#define PAGE 4096
#define PAGES 4
/* The words of a store for one key in one shard. */
#define ONE 19

static uint64_t words[MOST_WORDS];
static int checks;

static void check(int holds, int line)
{
    if (!holds) {
        printf("check_debts.c:%d: does not hold\n", line);
        exit(1);
    }
    checks++;
}
#define CHECK(holds) check((holds) != 0, __LINE__)

/* Whether a reply is these three numbers. */
static int tells(limiter_reply reply, uint64_t code, uint64_t number, uint64_t moment)
{
    return reply.code == code && reply.number == number && reply.moment == moment;
}

/* Whether a record is this debt. */
static int is(limiter_debt record, uint64_t hash, uint64_t settles_at)
{
    return record.hash == hash && record.settles_at == settles_at;
}

/* 2 tokens a second, at most 4, one shard. */
static limiter_settings settings_for(uint64_t keys)
{
    return limiter_with_burst(limiter_settings_of(2, SECOND, keys), 4);
}

static size_t set_up(limiter_settings s)
{
    size_t len = (size_t)limiter_words(s);
    CHECK(len > 0 && len <= MOST_WORDS && limiter_set_up(s, words, len).code == LIMITER_DONE);
    return len;
}

/* Memory between two pages that nobody may touch. */
static uint8_t *between_walls(void)
{
    uint8_t *start = (uint8_t *)mmap(NULL, (PAGES + 2) * PAGE, PROT_READ | PROT_WRITE, MAP_PRIVATE | MAP_ANONYMOUS, -1, 0);
    CHECK((void *)start != MAP_FAILED);
    CHECK(mprotect(start, PAGE, PROT_NONE) == 0 && mprotect(start + (PAGES + 1) * PAGE, PAGE, PROT_NONE) == 0);
    return start + PAGE;
}

/* The memory of the lent words and that of the records. The words lie at its end, the records at its end and at its start in turn. */
static uint8_t *words_memory, *records_memory;

/* The list of a call, and what it was before. */
static limiter_debt *records, before[MOST_RECORDS];
static size_t lent;

/* Makes the call with so many records of some content. The words may not be written while it runs. */
static limiter_reply list(limiter_settings s, size_t len, uint64_t now, uint64_t shard, size_t count)
{
    static int turn = 0;
    uint64_t *only_read = (uint64_t *)(void *)(words_memory + PAGES * PAGE) - len;
    limiter_reply reply;
    size_t i;
    CHECK(count <= MOST_RECORDS && len * 8 <= PAGES * PAGE);
    memcpy(only_read, words, len * 8);
    records = (limiter_debt *)(void *)((turn++ & 1) != 0 ? records_memory : records_memory + PAGES * PAGE - count * sizeof *records);
    lent = count;
    for (i = 0; i < count; i++) {
        before[i].hash = UINT64_C(0x1111111111111111) * i;
        before[i].settles_at = ~before[i].hash;
        records[i] = before[i];
    }
    CHECK(mprotect(words_memory, PAGES * PAGE, PROT_READ) == 0);
    reply = limiter_debts(s, only_read, len, now, shard, count > 0 ? records : NULL, count);
    CHECK(memcmp(only_read, words, len * 8) == 0);
    CHECK(mprotect(words_memory, PAGES * PAGE, PROT_READ | PROT_WRITE) == 0);
    return reply;
}

/* Whether the records from a place on are as they were. */
static int unchanged_from(size_t place)
{
    return place <= lent && (place == lent || memcmp(records + place, before + place, (lent - place) * sizeof *records) == 0);
}

/* Whether the last call told so many debts, and left the records past them. */
static int listed(limiter_reply reply, uint64_t number)
{
    return tells(reply, LIMITER_DONE, number, 0) && unchanged_from((size_t)number);
}

/* Whether the last call was refused with this code, and wrote no record. */
static int refused(limiter_reply reply, uint64_t code)
{
    return tells(reply, code, 0, 0) && unchanged_from(0);
}

/* Modems 1 to 4 take 1 to 4 tokens at moment 0, and modems 5 to 7 take the slots of 1 to 3. A token takes half a second, so the debt of modem n settles after
 * n half seconds. */
static size_t three_debts(limiter_settings s)
{
    const size_t len = set_up(s);
    uint64_t modem;
    for (modem = 1; modem <= 7; modem++)
        CHECK(limiter_try(s, words, len, 0, modem, modem, (uint32_t)(modem <= 4 ? modem : 1)).code == LIMITER_DONE);
    CHECK(limiter_length(s, words, len).number == 4);
    return len;
}

/* The debts that settle after a moment, and not one that settles at it. A modem whose debt is listed does not find its bucket full. */
static void strictly_after(void)
{
    limiter_settings s = settings_for(4);
    const size_t len = three_debts(s);
    uint64_t half, now;
    size_t i;
    for (half = 0; half <= 4; half++) {
        const uint64_t left = half < 3 ? 3 - half : 0, more = half <= 3 ? left + 1 : left;
        now = half * (SECOND / 2);
        if (now > 0)
            CHECK(listed(list(s, len, now - 1, 0, 4), more));
        CHECK(listed(list(s, len, now, 0, 4), left));
        for (i = 0; i < left; i++) {
            CHECK(is(records[i], half + 1 + i, (half + 1 + i) * (SECOND / 2)));
            CHECK(limiter_available(s, words, len, now, records[i].hash, records[i].hash).number < 4);
        }
        CHECK(listed(list(s, len, now + 1, 0, 4), left));
    }
    CHECK(listed(list(s, len, LAST, 0, 0), 0));
    /* A debt that is paid back, removed or cleared is not listed, and a modem that comes back takes its debt out. */
    CHECK(limiter_refund(s, words, len, 3, 3, 3).code == LIMITER_DONE && listed(list(s, len, 0, 0, 4), 2));
    CHECK(limiter_remove(s, words, len, 2, 2).code == LIMITER_DONE && listed(list(s, len, 0, 0, 4), 1));
    CHECK(limiter_remove(s, words, len, 4, 4).code == LIMITER_DONE && limiter_try(s, words, len, 0, 1, 1, 1).code == LIMITER_DONE);
    CHECK(listed(list(s, len, 0, 0, 4), 0));
    three_debts(s);
    CHECK(limiter_clear(s, words, len).code == LIMITER_DONE && listed(list(s, len, 0, 0, 4), 0));
}

/* Words of a store for so many keys: where the ledger of a shard begins. Its count, its cursor, and then its debts. */
static uint64_t *ledger_of(size_t cap, size_t shard)
{
    return words + 1 + shard * (5 + 13 * cap) + 3 + 7 * cap;
}

/* The order is that of the ledger, and a debt that has settled leaves no gap. The same hash may stand twice, and a debt past the count is none. */
static void ledger_order(void)
{
    static const uint64_t debts[5][2] = { { 90, 30 }, { 10, 20 }, { 50, 40 }, { 90, 25 }, { 70, 99 } };
    limiter_settings s = settings_for(5);
    const size_t len = set_up(s);
    uint64_t *ledger = ledger_of(5, 0);
    memcpy(ledger + 2, debts, sizeof debts);
    ledger[0] = 4;
    CHECK(listed(list(s, len, 0, 0, 6), 4));
    CHECK(is(records[0], 90, 30) && is(records[1], 10, 20) && is(records[2], 50, 40) && is(records[3], 90, 25));
    CHECK(listed(list(s, len, 25, 0, 6), 2) && is(records[0], 90, 30) && is(records[1], 50, 40));
    ledger[0] = 5;
    CHECK(listed(list(s, len, 30, 0, 6), 2) && is(records[0], 50, 40) && is(records[1], 70, 99));
    /* A moment after 2^62, at which no call is taken. */
    ledger[3] = UINT64_MAX;
    CHECK(listed(list(s, len, LAST, 0, 1), 1) && is(records[0], 90, UINT64_MAX));
}

/* Lists of every length from 0 to two past the number. */
static void every_length(void)
{
    limiter_settings s = settings_for(40);
    const size_t len = set_up(s);
    uint64_t *ledger = ledger_of(40, 0);
    size_t count, held, i;
    for (held = 0; held <= 40; held++) {
        ledger[0] = held;
        /* Every third has settled at 5. */
        for (i = 0; i < held; i++) {
            ledger[2 + 2 * i] = 100 + i;
            ledger[3 + 2 * i] = i % 3 == 2 ? 5 : 6 + i;
        }
        for (count = 0; count < held - held / 3; count++)
            CHECK(refused(list(s, len, 5, 0, count), LIMITER_BAD_RECORDS));
        for (; count <= held - held / 3 + 2; count++) {
            CHECK(listed(list(s, len, 5, 0, count), held - held / 3));
            for (i = 0; i < held - held / 3; i++)
                CHECK(is(records[i], 100 + i + i / 2, 6 + i + i / 2));
        }
    }
}

/* The refusals, each before all that come after it. */
static void refusals(void)
{
    limiter_settings s = limiter_with_shards(settings_for(8), 2), bad;
    const size_t len = set_up(s);
    const uint64_t late = LAST + 1;
    ledger_of(4, 1)[0] = 5;
    bad = limiter_with_burst(s, 0);
    bad.amount = 0;
    bad.period = 0;
    bad.shards = 65;
    CHECK(refused(list(bad, 0, late, 2, 3), LIMITER_BAD_AMOUNT));
    bad.amount = 2;
    CHECK(refused(list(bad, 0, late, 2, 3), LIMITER_BAD_PERIOD));
    bad.period = SECOND;
    CHECK(refused(list(bad, 0, late, 2, 3), LIMITER_BAD_BURST));
    bad.burst = 4;
    CHECK(refused(list(bad, 0, late, 2, 3), LIMITER_BAD_SIZES));
    CHECK(refused(list(s, 0, late, 2, 3), LIMITER_BAD_MEMORY) && refused(list(s, len - 1, late, 2, 3), LIMITER_BAD_MEMORY));
    CHECK(refused(list(s, len + 1, late, 2, 3), LIMITER_BAD_MEMORY));
    CHECK(refused(list(s, len, late, 2, 3), LIMITER_BAD_MOMENT) && refused(list(s, len, UINT64_MAX, 2, 3), LIMITER_BAD_MOMENT));
    CHECK(refused(list(s, len, LAST, 2, 3), LIMITER_BAD_SHARD) && refused(list(s, len, 0, UINT64_MAX, 3), LIMITER_BAD_SHARD));
    CHECK(refused(list(s, len, 0, UINT64_C(1) << 32, 3), LIMITER_BAD_SHARD) && refused(list(s, len, 0, UINT64_C(1) << 63, 3), LIMITER_BAD_SHARD));
    CHECK(refused(list(s, len, 0, 1, 0), LIMITER_BAD_MEMORY) && refused(list(s, len, 0, 1, 6), LIMITER_BAD_MEMORY));
    ledger_of(4, 1)[0] = UINT64_MAX;
    CHECK(refused(list(s, len, 0, 1, 3), LIMITER_BAD_MEMORY));
    /* The other shard is not looked at. */
    CHECK(listed(list(s, len, 0, 0, 0), 0));
    ledger_of(4, 1)[0] = 1;
    ledger_of(4, 1)[3] = 1;
    CHECK(refused(list(s, len, 0, 1, 0), LIMITER_BAD_RECORDS) && listed(list(s, len, 0, 1, 1), 1) && is(records[0], 0, 1));
    /* No words, and no records, and neither. */
    CHECK(tells(limiter_debts(s, NULL, 0, 0, 0, NULL, 0), LIMITER_BAD_MEMORY, 0, 0));
    CHECK(tells(limiter_debts(s, words, len, 0, 1, NULL, 0), LIMITER_BAD_RECORDS, 0, 0));
    CHECK(tells(limiter_debts(s, words, len, 1, 1, NULL, 0), LIMITER_DONE, 0, 0));
}

/* The shards in use, by the first number that is refused: asked for, raised and rounded up. */
static void shards_in_use(void)
{
    static const uint64_t asked[5] = { 0, 1, 2, 3, 33 }, used[5] = { 1, 1, 2, 4, 64 };
    int i;
    for (i = 0; i < 5; i++) {
        limiter_settings s = limiter_with_shards(settings_for(8), asked[i]);
        const size_t len = set_up(s);
        uint64_t shard = 0;
        while (listed(list(s, len, 0, shard, 1), 0))
            shard++;
        CHECK(shard == used[i] && refused(list(s, len, 0, shard, 1), LIMITER_BAD_SHARD));
    }
}

/* Any other word may be anything: the total, the count of slots, the cursor, the indexes. A closed limiter is listed, and one with classes. */
static void other_words(void)
{
    limiter_settings s = settings_for(1), closed = limiter_closed_settings(1);
    size_t place;
    const size_t ledger = 1 + 3 + 7;
    int refusals_seen = 0;
    for (place = 0; place < ONE; place++) {
        set_up(s);
        words[ledger] = 1;
        words[ledger + 2] = 7;
        words[ledger + 3] = 9;
        words[place] = UINT64_MAX;
        if (place == ledger) {
            CHECK(refused(list(s, ONE, 8, 0, 2), LIMITER_BAD_MEMORY) && refused(list(closed, ONE, 8, 0, 2), LIMITER_BAD_MEMORY));
            refusals_seen++;
            continue;
        }
        CHECK(listed(list(s, ONE, 8, 0, 2), 1) && is(records[0], words[ledger + 2], words[ledger + 3]));
        CHECK(listed(list(closed, ONE, 8, 0, 2), 1) && is(records[0], words[ledger + 2], words[ledger + 3]));
        CHECK(refused(list(limiter_with_classes(s, 3), ONE, 8, 0, 2), LIMITER_BAD_MEMORY));
        CHECK(listed(list(limiter_with_classes(s, 3), ONE + 6, 8, 0, 2), 1));
    }
    CHECK(refusals_seen == 1);
}

int main(void)
{
    words_memory = between_walls();
    records_memory = between_walls();
    strictly_after();
    ledger_order();
    every_length();
    refusals();
    shards_in_use();
    other_words();
    printf("%d checks of debts hold\n", checks);
    return 0;
}
