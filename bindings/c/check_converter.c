/* What limiter.h says of the conversions: which words they leave, that the source is only read, that a refusal changes neither memory, who is refused and in
 * which order. Source and target lie at the ends of pages before which and after which nobody may touch memory, and the source may only be read. Compiles as
 * C99, C11 and C++. Run with bindings/c/run-example. */
#define _DEFAULT_SOURCE
#include <stdio.h>
#include <stdlib.h>
#include <string.h>
#include <sys/mman.h>

#include "limiter.h"

#define SECOND UINT64_C(1000000000)
#define MOST_WORDS 2048
#define PAGE 4096
#define PAGES 4

static int checks;

static void check(int holds, int line)
{
    if (!holds) {
        printf("check_converter.c:%d: does not hold\n", line);
        exit(1);
    }
    checks++;
}
#define CHECK(holds) check((holds) != 0, __LINE__)

/* Whether a reply is this code alone. */
static int tells(limiter_reply reply, uint64_t code)
{
    return reply.code == code && reply.number == 0 && reply.moment == 0;
}

/* 2 tokens a second, at most 4. */
static limiter_settings settings_for(uint64_t keys, uint64_t shards)
{
    return limiter_with_shards(limiter_with_burst(limiter_settings_of(2, SECOND, keys), 4), shards);
}

/* Memory between two pages that nobody may touch. */
static uint8_t *between_walls(void)
{
    uint8_t *start = (uint8_t *)mmap(NULL, (PAGES + 2) * PAGE, PROT_READ | PROT_WRITE, MAP_PRIVATE | MAP_ANONYMOUS, -1, 0);
    CHECK((void *)start != MAP_FAILED);
    CHECK(mprotect(start, PAGE, PROT_NONE) == 0 && mprotect(start + (PAGES + 1) * PAGE, PAGE, PROT_NONE) == 0);
    return start + PAGE;
}

static uint8_t *source_memory, *target_memory;
static uint64_t *target, before[MOST_WORDS];
static size_t target_words;

typedef limiter_reply conversion(limiter_settings s, const uint64_t *source, size_t source_len, uint64_t *target, size_t target_len);

/* Makes the call on a copy of the source, which may not be written while it runs, and on a target of some content. */
static limiter_reply convert(conversion *call, limiter_settings s, const uint64_t *source, size_t source_len, size_t target_len)
{
    uint64_t *only_read = (uint64_t *)(void *)(source_memory + PAGES * PAGE) - source_len;
    limiter_reply reply;
    size_t i;
    CHECK(source_len * 8 <= PAGES * PAGE && target_len * 8 <= PAGES * PAGE && target_len <= MOST_WORDS);
    if (source_len > 0)
        memcpy(only_read, source, source_len * 8);
    target = (uint64_t *)(void *)(target_memory + PAGES * PAGE) - target_len;
    target_words = target_len;
    for (i = 0; i < target_len; i++)
        target[i] = before[i] = UINT64_C(0x9e3779b97f4a7c15) * (i + 1);
    CHECK(mprotect(source_memory, PAGES * PAGE, PROT_READ) == 0);
    reply = call(s, source_len > 0 ? only_read : NULL, source_len, target_len > 0 ? target : NULL, target_len);
    CHECK(mprotect(source_memory, PAGES * PAGE, PROT_READ | PROT_WRITE) == 0);
    return reply;
}

/* Whether the last call was refused with this code, and changed no word of the target. */
static int refused(limiter_reply reply, uint64_t code)
{
    return tells(reply, code) && (target_words == 0 || memcmp(target, before, target_words * 8) == 0);
}

/* A store in which modems have places and debts; its words in both layouts. */
static uint64_t now_words[MOST_WORDS], old_words[MOST_WORDS];
static size_t now_len, old_len;

/* A hash that spreads the modems over the shards. */
static uint64_t hash_of(uint64_t modem)
{
    return UINT64_C(0x9e3779b97f4a7c15) * modem;
}

static void grow(limiter_settings s, uint64_t modems)
{
    uint64_t modem;
    now_len = (size_t)limiter_words(s);
    old_len = (size_t)limiter_words_01(s);
    CHECK(now_len > 0 && now_len < MOST_WORDS && old_len > 0 && old_len < now_len);
    CHECK(limiter_set_up(s, now_words, now_len).code == LIMITER_DONE);
    for (modem = 1; modem <= modems; modem++)
        limiter_try(s, now_words, now_len, modem, hash_of(modem), modem, (uint32_t)(1 + modem % 4));
    CHECK(tells(convert(limiter_convert_back, s, now_words, now_len, old_len), LIMITER_DONE));
    memcpy(old_words, target, old_len * 8);
}

/* Forth and back gives the same words again, whatever stood in the target. The converted store answers as the first. */
static void there_and_back(void)
{
    static const uint64_t keys[4] = { 1, 3, 8, 40 }, shards[3] = { 1, 2, 8 };
    int i, j;
    for (i = 0; i < 4; i++) {
        for (j = 0; j < 3; j++) {
            limiter_settings s = settings_for(keys[i], shards[j]);
            uint64_t moved[MOST_WORDS], modem;
            grow(s, 3 * keys[i]);
            CHECK(tells(convert(limiter_convert_forth, s, old_words, old_len, now_len), LIMITER_DONE));
            memcpy(moved, target, now_len * 8);
            CHECK(limiter_length(s, moved, now_len).number == limiter_length(s, now_words, now_len).number);
            CHECK(tells(convert(limiter_convert_back, s, moved, now_len, old_len), LIMITER_DONE) && memcmp(target, old_words, old_len * 8) == 0);
            for (modem = 1; modem <= 3 * keys[i] + 1; modem++) {
                const limiter_reply one = limiter_try(s, now_words, now_len, SECOND, hash_of(modem), modem, 1);
                const limiter_reply two = limiter_try(s, moved, now_len, SECOND, hash_of(modem), modem, 1);
                CHECK(one.code == two.code && one.number == two.number && one.moment == two.moment);
            }
        }
    }
}

/* The words of a shard in the first layout: three numbers, six words a slot, two numbers, two words a debt. */
static void first_layout(void)
{
    CHECK(limiter_words_01(settings_for(1, 1)) == 3 + 6 + 2 + 2);
    CHECK(limiter_words_01(settings_for(8, 2)) == 2 * (3 + 4 * 6 + 2 + 4 * 2));
    CHECK(limiter_words_01(limiter_with_classes(settings_for(1, 1), 3)) == 3 + 6 + 2 + 2);
    CHECK(limiter_words_01(settings_for(4096, 64)) > 0 && limiter_words_01(settings_for(4097, 64)) == 0);
    CHECK(limiter_words_01(settings_for(0, 1)) == 3 + 6 + 2 + 2 && limiter_words_01(settings_for(1, 65)) == 0);
}

/* The refusals, each before all that come after it. */
static void refusals(void)
{
    limiter_settings s = settings_for(8, 2), bad = limiter_with_burst(settings_for(5000, 65), 0);
    const size_t slot = 3, ledger = 3 + 4 * 6, shard = 3 + 4 * 6 + 2 + 4 * 2;
    uint64_t words[MOST_WORDS];
    grow(s, 16);
    memcpy(words, old_words, old_len * 8);
    bad.amount = 0;
    bad.period = 0;
    CHECK(refused(convert(limiter_convert_forth, bad, words, 0, 0), LIMITER_BAD_AMOUNT));
    bad.amount = 2;
    CHECK(refused(convert(limiter_convert_forth, bad, words, 0, 0), LIMITER_BAD_PERIOD));
    bad.period = SECOND;
    CHECK(refused(convert(limiter_convert_forth, bad, words, 0, 0), LIMITER_BAD_BURST));
    bad.burst = 4;
    CHECK(refused(convert(limiter_convert_forth, bad, words, 0, 0), LIMITER_BAD_SIZES));
    bad.shards = 64;
    CHECK(refused(convert(limiter_convert_forth, bad, words, 0, 0), LIMITER_BAD_SIZES));
    /* Lengths; then, in the last shard, a count over the room, twins, and a word past a count. */
    words[shard] = 5;
    CHECK(refused(convert(limiter_convert_forth, s, words, old_len - 1, now_len), LIMITER_BAD_MEMORY));
    CHECK(refused(convert(limiter_convert_forth, s, words, old_len + 1, now_len), LIMITER_BAD_MEMORY));
    CHECK(refused(convert(limiter_convert_forth, s, words, old_len, now_len - 1), LIMITER_BAD_MEMORY));
    CHECK(refused(convert(limiter_convert_forth, s, words, old_len, now_len + 1), LIMITER_BAD_MEMORY));
    CHECK(refused(convert(limiter_convert_forth, s, words, 0, 0), LIMITER_BAD_MEMORY));
    CHECK(refused(convert(limiter_convert_forth, s, words, old_len, now_len), LIMITER_BAD_MEMORY));
    words[shard] = 4;
    memcpy(words + shard + slot + 6, words + shard + slot, 2 * 8);
    words[ledger] = 0;
    words[ledger + 2] = 1;
    CHECK(refused(convert(limiter_convert_forth, s, words, old_len, now_len), LIMITER_TWINS));
    words[shard + slot + 6] = UINT64_MAX;
    CHECK(refused(convert(limiter_convert_forth, s, words, old_len, now_len), LIMITER_USED_PAST));
    memset(words + ledger, 0, (shard - ledger) * 8);
    CHECK(tells(convert(limiter_convert_forth, s, words, old_len, now_len), LIMITER_DONE));
    /* A class table is read as empty: the settings' number of classes changes nothing. */
    CHECK(tells(convert(limiter_convert_forth, limiter_with_classes(s, 3), words, old_len, now_len), LIMITER_DONE));
}

/* Going back, each word of a small store is damaged in turn. */
static void damage_going_back(void)
{
    limiter_settings s = settings_for(2, 1);
    uint64_t words[MOST_WORDS];
    size_t place;
    int memory = 0, past = 0, done = 0;
    grow(s, 3);
    for (place = 0; place < now_len; place++) {
        limiter_reply reply;
        memcpy(words, now_words, now_len * 8);
        words[place] ^= UINT64_C(1) << 40;
        reply = convert(limiter_convert_back, s, words, now_len, old_len);
        if (tells(reply, LIMITER_DONE)) {
            done++;
            continue;
        }
        CHECK(refused(reply, LIMITER_BAD_MEMORY) || refused(reply, LIMITER_USED_PAST));
        *(reply.code == LIMITER_BAD_MEMORY ? &memory : &past) += 1;
    }
    /* Damage is found in the total, the two counts and the eight words of the indexes. The debt past the count has two words. All others are carried over. */
    CHECK(memory == 11 && past == 2 && done == 19);
}

int main(void)
{
    source_memory = between_walls();
    target_memory = between_walls();
    there_and_back();
    first_layout();
    refusals();
    damage_going_back();
    printf("%d checks of conversions hold\n", checks);
    return 0;
}
