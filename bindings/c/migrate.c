/* A box in the field is updated. Its words have the first layout. They are converted to the present layout in other memory, and converted back; only if that
 * gives the old words again does the box go on with the new ones. A modem that the old box had forgotten in debt still owes. rust/examples/migrate.rs does the
 * same with files. Compiles as C99 and as C++. Run with bindings/c/run-example. */
#include <inttypes.h>
#include <stdio.h>
#include <string.h>

#include "limiter.h"

#define SECOND UINT64_C(1000000000)
#define MOST_WORDS 128
/* The store has room for 2 modems in one shard. */
#define ROOM 2
/* In the first layout a shard begins with three numbers, the number of its slots first. A slot has six words. */
#define FIRST_SLOT 3
#define SLOT_WORDS 6

static uint64_t old_words[MOST_WORDS], new_words[MOST_WORDS], again[MOST_WORDS];

/* A modem asks for some tokens. The hash of modem 1 is 1 here. */
static void ask(limiter_settings s, size_t len, uint64_t now, uint64_t modem, uint32_t tokens)
{
    const limiter_reply reply = limiter_try(s, new_words, len, now, modem, modem, tokens);
    printf("modem %" PRIu64 " asks for %" PRIu32 ": %s", modem, tokens, reply.code == LIMITER_DONE ? "granted" : limiter_code_text(reply.code));
    if (reply.code == LIMITER_RETRY)
        printf(", in %" PRIu64 " ms", reply.number / 1000000);
    printf("\n");
}

/* An old box as it is found in the field: modems 1 and 2 have taken all they may, modem 3 took the place of modem 1, and the box was stopped. */
static int stopped_box(limiter_settings s, size_t old_len, size_t new_len, uint64_t now)
{
    printf("old box:\n");
    if (limiter_set_up(s, new_words, new_len).code != LIMITER_DONE)
        return 0;
    ask(s, new_len, now, 1, 4);
    ask(s, new_len, now, 2, 4);
    ask(s, new_len, now, 3, 1);
    return limiter_convert_back(s, new_words, new_len, old_words, old_len).code == LIMITER_DONE;
}

/* Converts the old words. Whatever stood in the new ones is overwritten; a refusal changes nothing. Done is said only if the way back gives the old words. */
static int migrate(limiter_settings s, size_t old_len, size_t new_len)
{
    limiter_reply reply = limiter_convert_forth(s, old_words, old_len, new_words, new_len);
    if (reply.code == LIMITER_DONE)
        reply = limiter_convert_back(s, new_words, new_len, again, old_len);
    if (reply.code != LIMITER_DONE) {
        printf("refused, code %d: %s\n", (int)reply.code, limiter_code_text(reply.code));
        return 0;
    }
    if (memcmp(again, old_words, old_len * sizeof *again) != 0) {
        printf("the new words do not give the old ones again\n");
        return 0;
    }
    printf("migrated: %" PRIu64 " words from %" PRIu64 "\n", (uint64_t)new_len, (uint64_t)old_len);
    return 1;
}

int main(void)
{
    /* 2 tokens a second for each modem, at most 4 at once. */
    const limiter_settings s = limiter_with_burst(limiter_settings_of(2, SECOND, ROOM), 4);
    const uint64_t now = 1000 * SECOND;
    const size_t new_len = (size_t)limiter_words(s), old_len = (size_t)limiter_words_01(s);
    if (new_len == 0 || new_len > MOST_WORDS || old_len == 0 || old_len > MOST_WORDS || !stopped_box(s, old_len, new_len, now))
        return 1;
    memset(new_words, 0xff, sizeof new_words);
    if (!migrate(s, old_len, new_len))
        return 1;
    printf("new box:\n");
    ask(s, new_len, now + SECOND, 1, 4);
    ask(s, new_len, now + 2 * SECOND, 1, 4);

    /* A file in which a modem stands twice is refused. */
    memcpy(old_words + FIRST_SLOT + SLOT_WORDS, old_words + FIRST_SLOT, SLOT_WORDS * sizeof *old_words);
    printf("a modem twice: ");
    return migrate(s, old_len, new_len) ? 1 : 0;
}
