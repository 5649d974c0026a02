/* A support desk's view of one modem: it asks until it has to wait, reserves, and is looked at, paid back and forgotten. The technician learns
 * at which moment to try again, and how often the modem was turned away. Calls every function on keys, and every function that writes settings but the
 * closed one and that for classes. modem.c asks by address, classes.c through the limits of nodes and a hub, save.c saves and resumes, debts.c lists debts,
 * migrate.c converts; check.c, check_modem.c, check_classes.c, check_debts.c and check_converter.c try every function. Compiles as C99 and as C++. Run with
 * bindings/c/run-example. */
#include <inttypes.h>
#include <stdio.h>
#include <stdlib.h>

#include "limiter.h"

/* A second and a minute in nanoseconds. */
#define SECOND UINT64_C(1000000000)
#define MINUTE (60 * SECOND)

/* Says why a call was refused, and ends. */
static void stop_if_refused(limiter_reply reply)
{
    if (limiter_is_refused(reply.code)) {
        printf("refused, code %d: %s\n", (int)reply.code, limiter_code_text(reply.code));
        exit(1);
    }
}

/* 2 tokens a second, at most 4, 3 in a new bucket; room for 100 modems in 4 shards; forgotten after a minute without a request. A full shard
 * forgets a debt rather than turn a new modem away. */
static limiter_settings village(void)
{
    limiter_settings settings = limiter_settings_of(2, SECOND, 100);
    settings = limiter_with_burst(settings, 4);
    settings = limiter_with_initial(settings, 3);
    settings = limiter_with_shards(settings, 4);
    settings = limiter_with_idle(settings, MINUTE);
    return limiter_forgetting_debts(settings);
}

/* A store, and the modem that asks it. */
typedef struct desk {
    limiter_settings settings;
    uint64_t *words;
    size_t len;
    uint64_t modem, hash;
} desk;

/* The modem asks until there are no tokens left, and reserves two more, if they come within two seconds. Returns the moment from which these may
 * be used. */
static uint64_t spend(const desk *d, uint64_t now)
{
    limiter_reply reply;
    int granted = 0;
    while ((reply = limiter_try(d->settings, d->words, d->len, now, d->hash, d->modem, 1)).code == LIMITER_DONE)
        granted++;
    stop_if_refused(reply);
    printf("%d granted, then code %d: retry after %" PRIu64 " ns, at %" PRIu64 "\n", granted, (int)reply.code, reply.number, reply.moment);

    reply = limiter_reserve(d->settings, d->words, d->len, now, d->hash, d->modem, 2, 2 * SECOND);
    stop_if_refused(reply);
    printf("reserved, code %d: usable after %" PRIu64 " ns, at %" PRIu64 "\n", (int)reply.code, reply.number, reply.moment);
    return reply.moment;
}

/* Looks, which change nothing, and a refund of one token of the two. */
static void look_and_refund(const desk *d, uint64_t now)
{
    limiter_reply reply = limiter_peek(d->settings, d->words, d->len, now, d->hash, d->modem, 1);
    stop_if_refused(reply);
    printf("then the next one, code %d: after another %" PRIu64 " ns, at %" PRIu64 "\n", (int)reply.code, reply.number, reply.moment);

    /* Has the modem been trying at all? The reservation and the peek do not count. */
    reply = limiter_turned_away(d->settings, d->words, d->len, d->hash, d->modem);
    stop_if_refused(reply);
    printf("tries turned away since the modem got its slot, code %d: %" PRIu64 "\n", (int)reply.code, reply.number);

    reply = limiter_refund(d->settings, d->words, d->len, d->hash, d->modem, 1);
    stop_if_refused(reply);
    printf("paid back, code %d", (int)reply.code);
    reply = limiter_available(d->settings, d->words, d->len, now, d->hash, d->modem);
    stop_if_refused(reply);
    printf(": %" PRIu64 " token\n", reply.number);
}

/* The modem is forgotten, and its count with it; and then everything. */
static void forget(const desk *d)
{
    limiter_reply reply;
    printf("%" PRIu64 " modem known\n", limiter_length(d->settings, d->words, d->len).number);
    reply = limiter_remove(d->settings, d->words, d->len, d->hash, d->modem);
    printf("removed, code %d", (int)reply.code);
    reply = limiter_remove(d->settings, d->words, d->len, d->hash, d->modem);
    printf("; removed again, code %d", (int)reply.code);
    printf("; tries turned away: %" PRIu64 "\n", limiter_turned_away(d->settings, d->words, d->len, d->hash, d->modem).number);
    reply = limiter_clear(d->settings, d->words, d->len);
    printf("cleared, code %d: %" PRIu64 " modems known\n", (int)reply.code, limiter_length(d->settings, d->words, d->len).number);
}

int main(void)
{
    desk d;
    limiter_reply reply;

    d.settings = village();
    d.modem = UINT64_C(0x00112233445566);
    d.hash = limiter_key_hash(d.modem);
    d.len = (size_t)limiter_words(d.settings);
    d.words = (uint64_t *)malloc(d.len * sizeof *d.words);
    if (d.words == NULL)
        return 1;
    printf("interface %s, library %06" PRIx32 ", %" PRIu64 " words\n", LIMITER_VERSION, limiter_version(), (uint64_t)d.len);
    stop_if_refused(limiter_set_up(d.settings, d.words, d.len));

    look_and_refund(&d, spend(&d, 5 * SECOND));
    forget(&d);

    /* A moment that is too late is refused, and nothing happens. */
    reply = limiter_try(d.settings, d.words, d.len, UINT64_MAX, d.hash, d.modem, 1);
    printf("refused, code %d: %s\n", (int)reply.code, limiter_code_text(reply.code));
    free(d.words);
    return 0;
}
