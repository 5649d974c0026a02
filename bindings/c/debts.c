/* Who is still in debt? A village came back after a power cut, with more modems than there is room for. The store forgot some of them and kept their debts. The
 * morning shift lists the debts shard by shard, with the time until each settles. The store keeps the hash of a modem, and the server knows the hashes of its
 * customers' modems: so it names them. rust/examples/morning_shift.rs does the same from a saved store. Compiles as C99 and as C++. Run with
 * bindings/c/run-example. */
#include <inttypes.h>
#include <stdio.h>

#include "limiter.h"

#define SECOND UINT64_C(1000000000)
#define MOST_WORDS 128
#define MODEMS 12
/* The store has room for 8 modems in 2 shards: a shard for 4 modems and 4 debts. */
#define ROOM 8
#define MOST_DEBTS 4

static uint64_t words[MOST_WORDS];

/* The modems of the village differ in the last byte of their addresses. */
static limiter_identity identity_of(unsigned modem)
{
    uint8_t address[6] = { 0x00, 0x1a, 0x2b, 0x3c, 0x4d, 0x00 };
    address[5] = (uint8_t)modem;
    return limiter_modem_identity(address, sizeof address);
}

/* All modems ask at once, each for as many configurations as it needs. */
static void power_comes_back(limiter_settings s, size_t len, uint64_t now)
{
    unsigned modem;
    for (modem = 1; modem <= MODEMS; modem++) {
        const limiter_identity who = identity_of(modem);
        limiter_try(s, words, len, now, who.hash, who.key, 1 + modem % 4);
    }
}

/* The modem of a hash, if it is a customer's; modem 2 was sold. */
static void name(uint64_t hash)
{
    unsigned modem;
    for (modem = 1; modem <= MODEMS; modem++) {
        if (modem != 2 && identity_of(modem).hash == hash) {
            printf("modem 00:1a:2b:3c:4d:%02x", modem);
            return;
        }
    }
    printf("unknown hash %016" PRIx64, hash);
}

/* Lists all shards: their numbers begin at 0, and the first that is refused ends the list. */
static int list(limiter_settings s, size_t len, uint64_t now)
{
    limiter_debt records[MOST_DEBTS];
    limiter_reply reply;
    uint64_t shard, i;
    for (shard = 0; (reply = limiter_debts(s, words, len, now, shard, records, MOST_DEBTS)).code == LIMITER_DONE; shard++) {
        printf("shard %" PRIu64 ": %" PRIu64 " in debt\n", shard, reply.number);
        for (i = 0; i < reply.number; i++) {
            printf("  ");
            name(records[i].hash);
            printf(" settles in %" PRIu64 " ms\n", (records[i].settles_at - now) / 1000000);
        }
    }
    if (reply.code != LIMITER_BAD_SHARD)
        printf("%s\n", limiter_code_text(reply.code));
    return reply.code == LIMITER_BAD_SHARD;
}

int main(void)
{
    /* 2 configurations a second for each modem, at most 4 at once. */
    const limiter_settings s = limiter_with_shards(limiter_with_burst(limiter_settings_of(2, SECOND, ROOM), 4), 2);
    const size_t len = (size_t)limiter_words(s);
    if (len == 0 || len > MOST_WORDS || limiter_set_up(s, words, len).code != LIMITER_DONE)
        return 1;
    power_comes_back(s, len, 100 * SECOND);
    printf("when the power is back:\n");
    if (!list(s, len, 100 * SECOND))
        return 1;
    /* A debt that settles at this moment is not listed. */
    printf("a second later:\n");
    return list(s, len, 101 * SECOND) ? 0 : 1;
}
