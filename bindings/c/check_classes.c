/* What limiter.h says of classes: who is refused and in which order, that a try through a class is granted by the key's bucket and every bucket on the chain,
 * which wait it tells, what it charges and counts, and that no other call touches a class. Compiles as C99, C11 and C++. Run with bindings/c/run-example. */
#include <stdio.h>
#include <stdlib.h>
#include <string.h>

#include "limiter.h"

#define SECOND UINT64_C(1000000000)
#define MOST_WORDS 256
/* The words of a store for one key in one shard, and the most classes that are lent here. */
#define ONE 19
#define MANY 66

static uint64_t words[MOST_WORDS];
static limiter_class table[MANY];
static int checks;

static void check(int holds, int line)
{
    if (!holds) {
        printf("check_classes.c:%d: does not hold\n", line);
        exit(1);
    }
    checks++;
}
#define CHECK(holds) check((holds) != 0, __LINE__)

/* Whether a reply is these three numbers. */
static int tells(limiter_reply reply, uint64_t code, uint64_t number, uint64_t moment)
{
    return reply.code == code && reply.number == number && reply.moment == moment;
}

/* 2 tokens a second, at most 4, one key, one shard. */
static limiter_settings small(void)
{
    return limiter_with_burst(limiter_settings_of(2, SECOND, 1), 4);
}

/* A table of so many equal classes without parents: 10 tokens a second. */
static void equal_classes(size_t count)
{
    size_t i;
    for (i = 0; i < count; i++)
        table[i] = limiter_class_of(10, SECOND);
}

/* A chain of so many: each class below the one before it. */
static void chain(size_t count)
{
    size_t i;
    equal_classes(count);
    for (i = 1; i < count; i++)
        table[i] = limiter_class_with_parent(table[i], i - 1);
}

static limiter_reply set_up(limiter_settings s, size_t count, size_t len)
{
    return limiter_class_set_up(s, table, count, words, len);
}

static limiter_reply try_one(limiter_settings s, size_t count, uint64_t now, uint64_t named, uint32_t cost)
{
    return limiter_class_try(s, table, count, words, ONE + 2 * count, now, 7, 7, named, cost);
}

/* Whether set-up, clear and a try are all refused with this code, and no word changes. */
static int all_refused(limiter_settings s, size_t count, size_t len, uint64_t code)
{
    uint64_t before[MOST_WORDS];
    int refused;
    memcpy(before, words, sizeof before);
    refused = tells(set_up(s, count, len), code, 0, 0) && tells(limiter_class_clear(s, table, count, words, len), code, 0, 0)
        && tells(limiter_class_try(s, table, count, words, len, 0, 7, 7, 0, 1), code, 0, 0);
    return refused && memcmp(before, words, sizeof before) == 0;
}

/* The functions that write a class, and the words that it is. */
static void written_classes(void)
{
    static const uint64_t full[6] = { 5, 6, 1, 7, 1, 8 }, plain[6] = { 5, 6, 0, 0, 0, 0 };
    limiter_class c = limiter_class_of(5, 6);
    CHECK(memcmp(&c, plain, sizeof plain) == 0);
    c = limiter_class_with_parent(limiter_class_with_burst(c, 7), 8);
    CHECK(memcmp(&c, full, sizeof full) == 0);
    CHECK(sizeof c == sizeof full);
}

/* No classes: the calls with a table are those without, and NULL is a table. */
static void no_classes(void)
{
    limiter_settings s = small();
    CHECK(tells(limiter_class_set_up(s, NULL, 0, words, ONE), LIMITER_DONE, 0, 0));
    CHECK(tells(limiter_try(s, words, ONE, 0, 7, 7, 4), LIMITER_DONE, 0, 0));
    CHECK(tells(limiter_class_clear(s, NULL, 0, words, ONE), LIMITER_DONE, 0, 0));
    CHECK(limiter_length(s, words, ONE).number == 0);
    /* There is no class 0. */
    CHECK(tells(limiter_class_try(s, NULL, 0, words, ONE, 0, 7, 7, 0, 0), LIMITER_BAD_CLASS, 0, 0));
    CHECK(tells(limiter_class_set_up(s, NULL, 0, NULL, 0), LIMITER_BAD_MEMORY, 0, 0));
}

/* The number of classes is the table's in the calls with one, the settings' in the others, and 0 in set-up and clear without one. */
static void numbers_of_classes(void)
{
    limiter_settings s = limiter_with_classes(small(), 3), other = limiter_with_classes(small(), 9);
    equal_classes(3);
    CHECK(limiter_words(s) == ONE + 6);
    CHECK(tells(set_up(other, 3, ONE + 6), LIMITER_DONE, 0, 0));
    CHECK(tells(try_one(other, 3, 0, 2, 1), LIMITER_DONE, 0, 0));
    CHECK(limiter_length(s, words, ONE + 6).number == 1 && limiter_length(other, words, ONE + 6).code == LIMITER_BAD_MEMORY);
    CHECK(tells(limiter_peek(s, words, ONE + 6, 0, 7, 7, 4), LIMITER_RETRY, SECOND / 2, SECOND / 2));
    CHECK(limiter_try(other, words, ONE + 6, 0, 7, 7, 1).code == LIMITER_BAD_MEMORY);
    /* A clear without the table leaves a store with classes as it is. */
    CHECK(limiter_clear(s, words, ONE + 6).code == LIMITER_BAD_MEMORY && limiter_set_up(s, words, ONE + 6).code == LIMITER_BAD_MEMORY);
    CHECK(limiter_length(s, words, ONE + 6).number == 1);
    CHECK(tells(limiter_class_clear(other, table, 3, words, ONE + 6), LIMITER_DONE, 0, 0));
    CHECK(limiter_length(s, words, ONE + 6).number == 0);
    CHECK(tells(limiter_set_up(other, words, ONE), LIMITER_DONE, 0, 0));
    CHECK(tells(limiter_clear(other, words, ONE), LIMITER_DONE, 0, 0));
}

/* The refusals of the settings and of the memory come before those of the table. */
static void settings_first(void)
{
    limiter_settings s = small();
    equal_classes(MANY);
    table[0].amount = 0;
    CHECK(all_refused(limiter_settings_of(0, 0, 65537), MANY, 0, LIMITER_BAD_AMOUNT));
    CHECK(all_refused(limiter_settings_of(1, 0, 65537), MANY, 0, LIMITER_BAD_PERIOD));
    CHECK(all_refused(limiter_with_burst(limiter_settings_of(1, 1, 65537), 0), MANY, 0, LIMITER_BAD_BURST));
    CHECK(all_refused(limiter_settings_of(1, 1, 65537), MANY, 0, LIMITER_BAD_SIZES));
    CHECK(all_refused(s, MANY, ONE, LIMITER_BAD_MEMORY));
    CHECK(all_refused(s, MANY, ONE + 2 * MANY - 1, LIMITER_BAD_MEMORY));
    CHECK(all_refused(s, MANY, ONE + 2 * MANY, LIMITER_BAD_CLASS));
    CHECK(all_refused(s, 65, ONE + 130, LIMITER_BAD_CLASS));
    /* More classes than any memory holds are refused for the memory. */
    CHECK(all_refused(s, SIZE_MAX, ONE, LIMITER_BAD_MEMORY));
    CHECK(all_refused(s, SIZE_MAX / 6 + 1, ONE, LIMITER_BAD_MEMORY) && all_refused(s, SIZE_MAX / 6 + 4, ONE + 2, LIMITER_BAD_MEMORY));
    /* 64 are not too many: the rate of the first is looked at. */
    CHECK(all_refused(s, 64, ONE + 128, LIMITER_BAD_AMOUNT));
    CHECK(all_refused(limiter_closed_settings(1), 64, ONE + 128, LIMITER_BAD_AMOUNT));
}

/* The table: the rates class by class, then the parents, then the chains. A number over 32 bits is not cut. */
static void table_order(void)
{
    limiter_settings s = small();
    chain(9);
    table[2] = limiter_class_with_parent(table[2], 9);
    table[5] = limiter_class_with_burst(table[5], 65536);
    table[4].period = 0;
    table[3].amount = UINT64_C(0x100000001);
    CHECK(all_refused(s, 9, ONE + 18, LIMITER_BAD_AMOUNT));
    table[3].amount = 1;
    CHECK(all_refused(s, 9, ONE + 18, LIMITER_BAD_PERIOD));
    table[4].period = (UINT64_C(1) << 46) + 1;
    CHECK(all_refused(s, 9, ONE + 18, LIMITER_BAD_PERIOD));
    table[4].period = UINT64_C(1) << 46;
    CHECK(all_refused(s, 9, ONE + 18, LIMITER_BAD_BURST));
    table[5].burst = UINT64_C(0x100000001);
    CHECK(all_refused(s, 9, ONE + 18, LIMITER_BAD_BURST));
    table[5].has_burst = 0;
    CHECK(all_refused(s, 9, ONE + 18, LIMITER_BAD_CLASS));
    table[2].parent = UINT64_C(1) << 32;
    CHECK(all_refused(s, 9, ONE + 18, LIMITER_BAD_CLASS));
    table[2].parent = 1;
    CHECK(all_refused(s, 9, ONE + 18, LIMITER_BAD_CHAIN));
    table[2].has_parent = 0;
    CHECK(set_up(s, 9, ONE + 18).code == LIMITER_DONE);
    /* A parent whose flag is not set is not read. */
    table[2].parent = 99;
    CHECK(set_up(s, 9, ONE + 18).code == LIMITER_DONE);
}

/* Chains of 8 end in time, in either order of the numbers. Chains of 9 and loops do not. */
static void chains(void)
{
    limiter_settings s = small();
    size_t i;
    chain(8);
    CHECK(set_up(s, 8, ONE + 16).code == LIMITER_DONE && try_one(s, 8, 0, 7, 1).code == LIMITER_DONE);
    chain(9);
    CHECK(all_refused(s, 9, ONE + 18, LIMITER_BAD_CHAIN));
    equal_classes(8);
    for (i = 0; i < 7; i++)
        table[i] = limiter_class_with_parent(table[i], i + 1);
    CHECK(set_up(s, 8, ONE + 16).code == LIMITER_DONE && try_one(s, 8, 0, 0, 1).code == LIMITER_DONE);
    table[7] = limiter_class_with_parent(table[7], 0);
    CHECK(all_refused(s, 8, ONE + 16, LIMITER_BAD_CHAIN));
    equal_classes(2);
    table[1] = limiter_class_with_parent(table[1], 1);
    CHECK(all_refused(s, 2, ONE + 4, LIMITER_BAD_CHAIN));
    /* A try is refused for the whole table, also through a class whose own chain is short, and for its named class last. */
    CHECK(try_one(s, 2, 0, 0, 1).code == LIMITER_BAD_CHAIN && try_one(s, 2, 0, 2, 1).code == LIMITER_BAD_CHAIN);
    table[1].has_parent = 0;
    CHECK(set_up(s, 2, ONE + 4).code == LIMITER_DONE);
    CHECK(tells(try_one(s, 2, 0, 2, 0), LIMITER_BAD_CLASS, 0, 0) && tells(try_one(s, 2, 0, UINT64_MAX, 9), LIMITER_BAD_CLASS, 0, 0));
    CHECK(tells(try_one(s, 2, (UINT64_C(1) << 62) + 1, 2, 0), LIMITER_BAD_MOMENT, 0, 0));
}

/* A hub (class 0, 3 tokens a second, at most 6) and a node below it (class 1, 1 a second, at most 5). */
static size_t hub_and_node(limiter_settings s)
{
    table[0] = limiter_class_with_burst(limiter_class_of(3, SECOND), 6);
    table[1] = limiter_class_with_parent(limiter_class_with_burst(limiter_class_of(1, SECOND), 5), 0);
    CHECK(set_up(s, 2, ONE + 4).code == LIMITER_DONE);
    return ONE + 4;
}

/* Granted if all grant; else the wait is the longest, and nothing is charged. */
static void longest_wait(void)
{
    limiter_settings s = limiter_with_classes(small(), 2);
    const size_t len = hub_and_node(s);
    uint64_t before[MOST_WORDS];
    /* The modem has 4, the node 5, the hub 6. Four are granted; then all lack some, the modem two, the node one and the hub none. */
    CHECK(tells(try_one(s, 2, 0, 1, 4), LIMITER_DONE, 0, 0));
    memcpy(before, words, sizeof before);
    CHECK(tells(limiter_peek(s, words, len, 0, 7, 7, 2), LIMITER_RETRY, SECOND, SECOND));
    CHECK(tells(try_one(s, 2, 0, 1, 2), LIMITER_RETRY, SECOND, SECOND));
    CHECK(tells(limiter_turned_away(s, words, len, 7, 7), LIMITER_DONE, 1, 0));
    /* At 1 s the modem has 2 and the node 2; at 1.5 s the modem has 3, and the node would have at 2 s. */
    CHECK(tells(try_one(s, 2, SECOND + SECOND / 2, 1, 3), LIMITER_RETRY, SECOND / 2, 2 * SECOND));
    CHECK(tells(limiter_peek(s, words, len, SECOND + SECOND / 2, 7, 7, 3), LIMITER_DONE, 0, SECOND + SECOND / 2));
    /* Only the class denied: the modem's count is as it was. Nothing was charged: the words of the classes are as they were. */
    CHECK(limiter_turned_away(s, words, len, 7, 7).number == 1);
    CHECK(memcmp(before + ONE, words + ONE, 4 * sizeof *words) == 0);
    CHECK(tells(try_one(s, 2, 2 * SECOND, 1, 3), LIMITER_DONE, 0, 2 * SECOND));
    /* Through the hub alone the node is not asked. */
    CHECK(tells(limiter_refund(s, words, len, 7, 7, 4), LIMITER_DONE, 0, 0));
    CHECK(tells(try_one(s, 2, 2 * SECOND, 1, 1), LIMITER_RETRY, SECOND, 3 * SECOND));
    CHECK(tells(try_one(s, 2, 2 * SECOND, 0, 3), LIMITER_DONE, 0, 2 * SECOND));
    CHECK(limiter_turned_away(s, words, len, 7, 7).number == 1);
}

/* Over a burst: impossible. Cost 0: granted. A closed limiter: the same as a plain try. None touches a word. */
static void untouched(void)
{
    limiter_settings s = small(), generous = limiter_with_burst(limiter_settings_of(2, SECOND, 1), 100), closed = limiter_closed_settings(1);
    uint64_t before[MOST_WORDS];
    hub_and_node(s);
    memcpy(before, words, sizeof before);
    CHECK(tells(try_one(s, 2, 9, 1, 5), LIMITER_IMPOSSIBLE, 0, 0));
    CHECK(tells(try_one(generous, 2, 9, 1, 6), LIMITER_IMPOSSIBLE, 0, 0) && tells(try_one(generous, 2, 9, 0, 7), LIMITER_IMPOSSIBLE, 0, 0));
    CHECK(tells(try_one(generous, 2, 9, 1, 0), LIMITER_DONE, 0, 9));
    CHECK(tells(try_one(closed, 2, 9, 1, 0), LIMITER_DONE, 0, 9) && tells(try_one(closed, 2, 9, 1, 1), LIMITER_IMPOSSIBLE, 0, 0));
    CHECK(memcmp(before, words, sizeof before) == 0);
    CHECK(tells(try_one(generous, 2, 9, 0, 6), LIMITER_DONE, 0, 9));
}

/* A denied try keeps the touch and the slot; no other call touches a class; a clock set back is waited for. */
static void around_classes(void)
{
    limiter_settings s = limiter_with_classes(small(), 2);
    const size_t len = hub_and_node(s);
    uint64_t before[MOST_WORDS];
    CHECK(tells(try_one(s, 2, SECOND, 1, 4), LIMITER_DONE, 0, SECOND));
    CHECK(limiter_remove(s, words, len, 7, 7).code == LIMITER_DONE);
    CHECK(tells(try_one(s, 2, SECOND, 1, 4), LIMITER_RETRY, 3 * SECOND, 4 * SECOND));
    CHECK(limiter_length(s, words, len).number == 1 && limiter_available(s, words, len, SECOND, 7, 7).number == 4);
    memcpy(before, words, sizeof before);
    CHECK(limiter_try(s, words, len, SECOND, 7, 7, 3).code == LIMITER_DONE);
    CHECK(limiter_reserve(s, words, len, SECOND, 7, 7, 2, SECOND).code == LIMITER_DONE);
    CHECK(limiter_refund(s, words, len, 7, 7, 9).code == LIMITER_DONE);
    CHECK(limiter_remove(s, words, len, 7, 7).code == LIMITER_DONE);
    CHECK(memcmp(before + ONE, words + ONE, 4 * sizeof *words) == 0);
    /* The clock is set back by a second: the node has 1 token, and lacks one until 2 s. */
    CHECK(tells(try_one(s, 2, 0, 1, 2), LIMITER_RETRY, 2 * SECOND, 2 * SECOND));
    CHECK(tells(try_one(s, 2, 0, 1, 1), LIMITER_DONE, 0, 0));
}

/* Want of space is told before the classes are asked: modem 7 has a debt and 8 the slot. */
static void no_room(void)
{
    limiter_settings s = limiter_with_classes(small(), 2);
    const size_t len = hub_and_node(s);
    CHECK(limiter_try(s, words, len, 0, 7, 7, 4).code == LIMITER_DONE);
    CHECK(limiter_class_try(s, table, 2, words, len, 0, 8, 8, 1, 4).code == LIMITER_DONE);
    /* The node lacks 3 tokens of 4 and would wait 3 s; room is expected after 2 s, when a slot or a debt is settled. */
    CHECK(tells(limiter_class_try(s, table, 2, words, len, 0, 9, 9, 1, 4), LIMITER_RETRY, 2 * SECOND, 2 * SECOND));
    CHECK(tells(limiter_class_try(s, table, 2, words, len, 0, 8, 8, 1, 4), LIMITER_RETRY, 3 * SECOND, 3 * SECOND));
}

int main(void)
{
    written_classes();
    no_classes();
    numbers_of_classes();
    settings_first();
    table_order();
    chains();
    longest_wait();
    untouched();
    around_classes();
    no_room();
    printf("%d checks of classes hold\n", checks);
    return 0;
}
