/* What limiter.h says of the calls by hardware address: 11 before 12, both before every other refusal, and otherwise the call on the modem's key; and
 * which text is an address. Compiles as C99, C11 and C++. Run with bindings/c/run-example. */
#include <stdio.h>
#include <stdlib.h>
#include <string.h>

#include "limiter.h"

#define SECOND UINT64_C(1000000000)
#define MOST_WORDS 64

/* 00:1a:2b:3c:4d:5e, its hash (worked out by another program) and its key. */
static const uint8_t modem[6] = { 0x00, 0x1a, 0x2b, 0x3c, 0x4d, 0x5e };
static const uint64_t hash = UINT64_C(0xa6a11141cd935a8b), key = UINT64_C(0x001a2b3c4d5e);

static uint64_t words[MOST_WORDS], others[MOST_WORDS];

static void check(int holds, int line)
{
    if (!holds) {
        printf("check_modem.c:%d: does not hold\n", line);
        exit(1);
    }
}
#define CHECK(holds) check((holds) != 0, __LINE__)

static int alike(limiter_reply one, limiter_reply other)
{
    return one.code == other.code && one.number == other.number && one.moment == other.moment;
}

static int refused(limiter_reply reply, uint64_t code)
{
    return reply.code == code && reply.number == 0 && reply.moment == 0;
}

static int named(limiter_identity identity, uint64_t code, uint64_t hash_of_it, uint64_t key_of_it)
{
    return identity.code == code && identity.hash == hash_of_it && identity.key == key_of_it;
}

/* 2 tokens a second, one key, one shard. */
static limiter_settings small(void)
{
    return limiter_settings_of(2, SECOND, 1);
}

/* All six calls refuse these bytes with `code`, whatever the settings, the words and the other arguments are. */
static void all_refuse(limiter_settings s, size_t len, const uint8_t *bytes, size_t count, uint64_t code)
{
    CHECK(refused(limiter_modem_try(s, words, len, UINT64_MAX, bytes, count, 1), code));
    CHECK(refused(limiter_modem_reserve(s, words, len, UINT64_MAX, bytes, count, 1, UINT64_MAX), code));
    CHECK(refused(limiter_modem_peek(s, words, len, UINT64_MAX, bytes, count, 1), code));
    CHECK(refused(limiter_modem_refund(s, words, len, bytes, count, 1), code));
    CHECK(refused(limiter_modem_remove(s, words, len, bytes, count), code));
    CHECK(named(limiter_modem_identity(bytes, count), code, 0, 0));
}

static void refusals(void)
{
    static uint8_t bytes[65536];
    static const size_t lengths[] = { 0, 1, 5, 7, 8, 65536 };
    limiter_settings bad = small();
    size_t i, len = (size_t)limiter_words(small());
    bad.amount = 0;
    all_refuse(bad, 0, NULL, 0, LIMITER_BAD_ADDRESS);
    /* A first byte with the group bit; with it the length comes first, and both before the settings. */
    bytes[0] = 0x01;
    for (i = 0; i < sizeof lengths / sizeof *lengths; i++) {
        all_refuse(small(), len, bytes, lengths[i], LIMITER_BAD_ADDRESS);
        all_refuse(bad, 0, bytes, lengths[i], LIMITER_BAD_ADDRESS);
    }
    all_refuse(small(), len, bytes, 6, LIMITER_GROUP_ADDRESS);
    all_refuse(bad, 0, bytes, 6, LIMITER_GROUP_ADDRESS);
    /* An address of a modem: the refusals of the other calls follow. The highest bit of the first byte is not the group bit. */
    bytes[0] = 0x80;
    CHECK(refused(limiter_modem_try(bad, words, len, 0, bytes, 6, 1), LIMITER_BAD_AMOUNT));
    CHECK(refused(limiter_modem_try(small(), words, 0, 0, modem, 6, 1), LIMITER_BAD_MEMORY));
}

/* The identity is the hash and the key, first byte first in both. */
static void identities(void)
{
    static const uint8_t turned[6] = { 0x5e, 0x4d, 0x3c, 0x2b, 0x1a, 0x00 };
    CHECK(named(limiter_modem_identity(modem, 6), LIMITER_DONE, hash, key));
    CHECK(limiter_modem_identity(turned, 6).key == UINT64_C(0x5e4d3c2b1a00));
    CHECK(limiter_modem_identity(turned, 6).hash != hash);
}

/* Text that is an address, and text that is none: 17 characters, six pairs of digits, five equal signs between them. */
static void text_of_addresses(void)
{
    static const char *const read[] = { "00:1a:2b:3c:4d:5e", "00:1A:2B:3c:4D:5e", "00-1a-2b-3c-4d-5e" };
    static const char *const unread[] = { "", "00", "00:1a:2b:3c:4d", "00:1a:2b:3c:4d:5", "00:1a:2b:3c:4d:5e:", "00:1a:2b:3c:4d:5e:6f", "001a2b3c4d5e",
        "00-1a:2b:3c:4d:5e", "00:1a:2b:3c:4d-5e", "00.1a.2b.3c.4d.5e", "0g:1a:2b:3c:4d:5e", "00:1a:2b:3c:4d:5G", "+0:1a:2b:3c:4d:5e",
        " 00:1a:2b:3c:4d:5", "00:1a:2b:3c:4d:5 ", "00:1a:2b:3c:4d:/0", "00:1a:2b:3c:4d::0", "00:1a:2b:3c:4d:@0", "00:1a:2b:3c:4d:`0" };
    uint8_t address[6];
    size_t i;
    for (i = 0; i < sizeof read / sizeof *read; i++) {
        memset(address, 0xee, sizeof address);
        CHECK(limiter_read_address(read[i], strlen(read[i]), address) == 1 && memcmp(address, modem, 6) == 0);
    }
    memset(address, 0xee, sizeof address);
    for (i = 0; i < sizeof unread / sizeof *unread; i++)
        CHECK(limiter_read_address(unread[i], strlen(unread[i]), address) == 0 && address[0] == 0xee && address[5] == 0xee);
    CHECK(limiter_read_address(NULL, 0, address) == 0);
    CHECK(limiter_read_address("ff:fe:09:90:aF:Fa", 17, address) == 1 && address[0] == 0xff && address[1] == 0xfe && address[2] == 0x09
        && address[3] == 0x90 && address[4] == 0xaf && address[5] == 0xfa);
}

/* A call by address is the call on the modem's key, in every word. */
static void as_the_key(void)
{
    limiter_settings s = small();
    size_t len = (size_t)limiter_words(s), bytes = len * sizeof *words;
    CHECK(len > 0 && len <= MOST_WORDS && limiter_set_up(s, words, len).code == LIMITER_DONE);
    memcpy(others, words, bytes);
    CHECK(alike(limiter_modem_try(s, words, len, 7, modem, 6, 2), limiter_try(s, others, len, 7, hash, key, 2)));
    CHECK(alike(limiter_modem_try(s, words, len, 7, modem, 6, 1), limiter_try(s, others, len, 7, hash, key, 1)));
    CHECK(limiter_turned_away(s, words, len, hash, key).number == 1 && limiter_turned_away(s, others, len, hash, key).number == 1);
    CHECK(limiter_modem_peek(s, words, len, 7, modem, 6, 1).code == LIMITER_RETRY);
    CHECK(alike(limiter_modem_peek(s, words, len, 7, modem, 6, 1), limiter_peek(s, others, len, 7, hash, key, 1)));
    CHECK(alike(limiter_modem_reserve(s, words, len, 7, modem, 6, 1, SECOND), limiter_reserve(s, others, len, 7, hash, key, 1, SECOND)));
    CHECK(alike(limiter_modem_refund(s, words, len, modem, 6, 1), limiter_refund(s, others, len, hash, key, 1)));
    CHECK(memcmp(words, others, bytes) == 0);
    CHECK(limiter_modem_remove(s, words, len, modem, 6).code == LIMITER_DONE && limiter_remove(s, others, len, hash, key).code == LIMITER_DONE);
    CHECK(memcmp(words, others, bytes) == 0);
    CHECK(limiter_modem_remove(s, words, len, modem, 6).code == LIMITER_NONE);
}

int main(void)
{
    refusals();
    identities();
    text_of_addresses();
    as_the_key();
    return 0;
}
