/* The power is back. The modems of two fibre nodes below one hub all ask at once, and neither node may flood the hub. Each modem asks through its node: its
 * own bucket, the node's and the hub's have to grant. A technician then looks at a modem whose own bucket would have granted. Compiles as C99 and as C++. Run
 * with bindings/c/run-example. */
#include <inttypes.h>
#include <stdio.h>
#include <stdlib.h>

#include "limiter.h"

#define SECOND UINT64_C(1000000000)
#define MOST_WORDS 256

/* The classes by their numbers, and how many there are. */
enum { HUB, EAST, WEST, CLASSES };

/* The hub takes 5 configurations a second, at most 12 at once; each node 2 a second, at most 8 at once. */
static limiter_class table[CLASSES];
static uint64_t words[MOST_WORDS];

static void fill_table(void)
{
    const limiter_class node = limiter_class_with_burst(limiter_class_of(2, SECOND), 8);
    table[HUB] = limiter_class_with_burst(limiter_class_of(5, SECOND), 12);
    table[EAST] = limiter_class_with_parent(node, HUB);
    table[WEST] = limiter_class_with_parent(node, HUB);
}

/* 1 configuration a second for each modem, at most 3 at once; room for 16 modems. */
static limiter_settings server(void)
{
    return limiter_with_classes(limiter_with_burst(limiter_settings_of(1, SECOND, 16), 3), CLASSES);
}

/* A modem asks through its node until it has to wait. */
static void ask(limiter_settings s, size_t len, uint64_t now, uint64_t modem, uint64_t node)
{
    const uint64_t hash = limiter_key_hash(modem);
    limiter_reply reply, own;
    int granted = 0;
    while ((reply = limiter_class_try(s, table, CLASSES, words, len, now, hash, modem, node, 1)).code == LIMITER_DONE)
        granted++;
    own = limiter_peek(s, words, len, now, hash, modem, 1);
    printf("modem %" PRIu64 " on the %s node gets %d; %s until %" PRIu64 " ns", modem, node == EAST ? "east" : "west", granted,
           limiter_code_text(reply.code), reply.moment);
    printf(own.code == LIMITER_DONE ? ", though its own bucket would grant\n" : "\n");
}

/* What a technician sees of a modem: its own tokens, and the tries that its own bucket turned away. Those that only a node or the hub turned away do not
 * count. */
static void look(limiter_settings s, size_t len, uint64_t now, uint64_t modem)
{
    const uint64_t hash = limiter_key_hash(modem);
    printf("modem %" PRIu64 " has %" PRIu64 " left", modem, limiter_available(s, words, len, now, hash, modem).number);
    printf("; tries that its own bucket turned away: %" PRIu64 "\n", limiter_turned_away(s, words, len, hash, modem).number);
}

int main(void)
{
    const limiter_settings s = server();
    const size_t len = (size_t)limiter_words(s);
    uint64_t modem;
    fill_table();
    if (len == 0 || len > MOST_WORDS || limiter_class_set_up(s, table, CLASSES, words, len).code != LIMITER_DONE)
        return 1;
    printf("after the power cut:\n");
    for (modem = 1; modem <= 4; modem++)
        ask(s, len, 100 * SECOND, modem, EAST);
    for (modem = 5; modem <= 6; modem++)
        ask(s, len, 100 * SECOND, modem, WEST);
    look(s, len, 100 * SECOND, 1);
    look(s, len, 100 * SECOND, 4);
    printf("a second later:\n");
    ask(s, len, 101 * SECOND, 4, EAST);
    ask(s, len, 101 * SECOND, 6, WEST);
    /* A try without a class asks the modem's own bucket alone: give every call on a node the class. */
    printf("without a class: %s\n", limiter_code_text(limiter_try(s, words, len, 101 * SECOND, limiter_key_hash(4), 4, 1).code));
    return 0;
}
