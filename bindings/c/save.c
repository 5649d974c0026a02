/* A server saves its store when it stops, and resumes it when it starts again. The file holds the settings, the words and a checksum over both. The library
 * takes any words of the right length whose counts are small enough, so the file is what tells other settings and damage. A server that cannot resume sets
 * up anew, and all modems then have full buckets. rust/examples/save_and_resume.rs reads and writes the same file. Compiles as C99 and as C++.
 * Run with bindings/c/run-example; by itself: save FILE. */
#define _POSIX_C_SOURCE 200809L
#include <inttypes.h>
#include <stdio.h>
#include <stdlib.h>
#include <string.h>
#include <unistd.h>

#include "limiter.h"

#define SECOND UINT64_C(1000000000)
#define MOST_WORDS 32768
#define FIELDS 12

/* The file: this mark, the settings as twelve numbers, the words, and the checksum. Each number takes eight bytes, lowest first. Another mark means another
 * form of the file. A file that version 0.5 saved has this mark and fewer words, so it is not resumed. One that version 0.6 saved is. The number of classes is
 * not among the twelve: this store has none. A server that has classes saves their table too, and compares it. */
static const char mark[] = "limiter2";
#define AROUND (1 + FIELDS + 1)

static uint64_t words[MOST_WORDS];

static void put(uint8_t *bytes, uint64_t number)
{
    size_t i;
    for (i = 0; i < 8; i++)
        bytes[i] = (uint8_t)(number >> (8 * i));
}

static uint64_t get(const uint8_t *bytes)
{
    uint64_t number = 0;
    size_t i;
    for (i = 0; i < 8; i++)
        number |= (uint64_t)bytes[i] << (8 * i);
    return number;
}

/* FNV-1a. A change within one byte always changes it; any other change does but for one case in 2^64. It has no secret: it finds damage, not a forger. */
static uint64_t checksum(const uint8_t *bytes, size_t count)
{
    uint64_t sum = UINT64_C(0xcbf29ce484222325);
    size_t i;
    for (i = 0; i < count; i++)
        sum = (sum ^ bytes[i]) * UINT64_C(0x100000001b3);
    return sum;
}

/* The settings as they are in the file. */
static void put_settings(uint8_t *bytes, limiter_settings s)
{
    const uint64_t fields[FIELDS] = { s.period, s.max_keys, s.shards, s.idle, s.closed, s.amount, s.has_burst, s.burst, s.has_initial, s.initial,
        s.has_idle, s.forget_debt };
    size_t i;
    for (i = 0; i < FIELDS; i++)
        put(bytes + 8 * i, fields[i]);
}

/* Writes the bytes beside the file and puts them in its place when they are on the disk, so that a server that is stopped in between leaves the file as it
 * was. Returns whether all went well. */
static int replace(const char *file, const uint8_t *bytes, size_t count)
{
    char beside[4096];
    FILE *out;
    int whole;
    if (snprintf(beside, sizeof beside, "%s.new", file) >= (int)sizeof beside || (out = fopen(beside, "wb")) == NULL)
        return 0;
    whole = fwrite(bytes, 1, count, out) == count && fflush(out) == 0 && fsync(fileno(out)) == 0;
    return fclose(out) == 0 && whole && rename(beside, file) == 0;
}

/* Saves the words of a store with its settings. Returns whether all went well. */
static int save(const char *file, limiter_settings s, size_t len)
{
    const size_t count = 8 * (AROUND + len);
    uint8_t *bytes = (uint8_t *)malloc(count);
    size_t i;
    int saved;
    if (bytes == NULL)
        return 0;
    memcpy(bytes, mark, 8);
    put_settings(bytes + 8, s);
    for (i = 0; i < len; i++)
        put(bytes + 8 * (1 + FIELDS + i), words[i]);
    put(bytes + count - 8, checksum(bytes, count - 8));
    saved = replace(file, bytes, count);
    free(bytes);
    return saved;
}

/* All bytes of a file; NULL where it cannot be read. */
static uint8_t *read_whole(const char *file, size_t *count)
{
    FILE *in = fopen(file, "rb");
    uint8_t *bytes = NULL;
    long end;
    if (in == NULL)
        return NULL;
    if (fseek(in, 0, SEEK_END) == 0 && (end = ftell(in)) > 0 && fseek(in, 0, SEEK_SET) == 0) {
        *count = (size_t)end;
        bytes = (uint8_t *)malloc(*count);
        if (bytes != NULL && fread(bytes, 1, *count, in) != *count) {
            free(bytes);
            bytes = NULL;
        }
    }
    fclose(in);
    return bytes;
}

/* Why these bytes are no store that was saved under these settings; NULL if they are one. */
static const char *fault(limiter_settings s, const uint8_t *bytes, size_t count)
{
    uint8_t settings[8 * FIELDS];
    if (count < 8 * AROUND || memcmp(bytes, mark, 8) != 0)
        return "no saved store";
    if (checksum(bytes, count - 8) != get(bytes + count - 8))
        return "damaged";
    put_settings(settings, s);
    if (memcmp(bytes + 8, settings, sizeof settings) != 0)
        return "saved under other settings";
    return count == 8 * (AROUND + limiter_words(s)) ? NULL : "another number of words";
}

/* Resumes the store of a file. Returns NULL, or why there is none; set up anew then. */
static const char *resume(const char *file, limiter_settings s, size_t len)
{
    size_t count = 0, i;
    uint8_t *bytes = read_whole(file, &count);
    const char *why;
    limiter_reply reply;
    if (bytes == NULL)
        return "cannot be read";
    why = fault(s, bytes, count);
    if (why == NULL)
        for (i = 0; i < len; i++)
            words[i] = get(bytes + 8 * (1 + FIELDS + i));
    free(bytes);
    if (why != NULL)
        return why;
    /* The last check is the library's: the settings, the number of words, and the total of slots. */
    reply = limiter_length(s, words, len);
    return reply.code == LIMITER_DONE ? NULL : limiter_code_text(reply.code);
}

/* Flips the lowest bit of the byte in the middle of a file. */
static int damage(const char *file)
{
    size_t count = 0;
    uint8_t *bytes = read_whole(file, &count);
    int done;
    if (bytes == NULL)
        return 0;
    bytes[count / 2] ^= 1;
    done = replace(file, bytes, count);
    free(bytes);
    return done;
}

/* Modem 7 asks. */
static void ask(limiter_settings s, size_t len, uint64_t now, uint32_t cost)
{
    limiter_reply reply = limiter_try(s, words, len, now, limiter_key_hash(7), 7, cost);
    printf("modem 7 asks for %" PRIu32 ": %s", cost, limiter_code_text(reply.code));
    if (reply.code == LIMITER_RETRY)
        printf(", again %" PRIu64 " ns from now", reply.number);
    printf("\n");
}

static void tell(const char *what, const char *why)
{
    printf("%s: %s\n", what, why == NULL ? "resumed" : why);
}

int main(int argc, char **argv)
{
    /* The moment has to be one of a clock that goes on when the server starts again, as the time since 1970 does. */
    const uint64_t now = 1800000000 * SECOND;
    const char *file = argc > 1 ? argv[1] : "limiter.saved";
    limiter_settings settings = limiter_with_burst(limiter_settings_of(2, SECOND, 2000), 4);
    size_t len = (size_t)limiter_words(settings);
    if (len == 0 || len > MOST_WORDS || limiter_set_up(settings, words, len).code != LIMITER_DONE)
        return 1;
    ask(settings, len, now, 4);
    if (!save(file, settings, len))
        return 1;

    /* The server starts again. Modem 7 still owes what it did. */
    memset(words, 0xee, sizeof words);
    tell("the same settings", resume(file, settings, len));
    ask(settings, len, now, 1);

    /* And again, with another burst; and after the disk lost a bit. */
    tell("another burst", resume(file, limiter_with_burst(settings, 8), len));
    if (!damage(file))
        return 1;
    tell("a bit flipped", resume(file, settings, len));
    return remove(file) == 0 ? 0 : 1;
}
