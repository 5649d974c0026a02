/* A provisioning server asks for modems by hardware address, which its requests have as text: it answers a modem, tells it when to come back, or refuses
 * it; a group's address is no modem's. A technician then looks at two modems. Compiles as C99 and as C++. Run with bindings/c/run-example. */
#include <inttypes.h>
#include <stdio.h>
#include <stdlib.h>
#include <string.h>

#include "limiter.h"

#define SECOND UINT64_C(1000000000)
#define MOST_WORDS 4096

static uint64_t words[MOST_WORDS];

/* One configuration file a second for each modem, at most two at once; room for 100 modems. */
static limiter_settings server(void)
{
    return limiter_with_burst(limiter_settings_of(1, SECOND, 100), 2);
}

/* A request for some configuration files, as it comes in: the text may be an address or not. */
typedef struct request {
    uint64_t now;
    uint32_t files;
    const char *text;
} request;

static void answer(limiter_settings settings, size_t len, const request *r)
{
    uint8_t address[6];
    limiter_reply reply;
    if (!limiter_read_address(r->text, strlen(r->text), address)) {
        printf("%s is no address\n", r->text);
        return;
    }
    reply = limiter_modem_try(settings, words, len, r->now, address, sizeof address, r->files);
    switch (reply.code) {
    case LIMITER_DONE: printf("%s gets %d\n", r->text, (int)r->files); break;
    case LIMITER_RETRY: printf("%s comes back at %" PRIu64 " ns\n", r->text, reply.moment); break;
    case LIMITER_IMPOSSIBLE: printf("%s never gets %d at once\n", r->text, (int)r->files); break;
    case LIMITER_GROUP_ADDRESS: printf("%s is no modem: %s\n", r->text, limiter_code_text(reply.code)); break;
    default: printf("%s: a mistake of ours, code %d: %s\n", r->text, (int)reply.code, limiter_code_text(reply.code));
    }
}

/* What a modem has left, and how many of its tries were turned away: looks that take a hash and a key. */
static void look(limiter_settings settings, size_t len, uint64_t now, const char *text)
{
    uint8_t address[6];
    limiter_identity modem;
    if (!limiter_read_address(text, strlen(text), address))
        return;
    modem = limiter_modem_identity(address, sizeof address);
    if (modem.code != LIMITER_DONE)
        return;
    printf("%s has %" PRIu64 " left", text, limiter_available(settings, words, len, now, modem.hash, modem.key).number);
    printf("; tries turned away: %" PRIu64 "\n", limiter_turned_away(settings, words, len, modem.hash, modem.key).number);
}

int main(void)
{
    static const request requests[] = {
        { 5 * SECOND, 1, "00:1a:2b:3c:4d:5e" }, { 5 * SECOND, 1, "00-1A-2B-3C-4D-5E" }, { 5 * SECOND, 1, "00:1a:2b:3c:4d:5e" },
        { 5 * SECOND, 1, "00:1a:2b:3c:4d:5f" }, { 5 * SECOND, 3, "00:1a:2b:3c:4d:5f" }, { 5 * SECOND, 1, "01:00:5e:00:00:01" },
        { 5 * SECOND, 1, "00:1a:2b:3c:4d" },
    };
    limiter_settings settings = server();
    size_t len = (size_t)limiter_words(settings), i;
    if (len == 0 || len > MOST_WORDS || limiter_set_up(settings, words, len).code != LIMITER_DONE)
        return 1;
    for (i = 0; i < sizeof requests / sizeof *requests; i++)
        answer(settings, len, &requests[i]);
    look(settings, len, 5 * SECOND, "00:1a:2b:3c:4d:5e");
    look(settings, len, 5 * SECOND, "00:1a:2b:3c:4d:5f");
    return 0;
}
