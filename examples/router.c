/* The exclusive router, held by a program in C: an offer at each side in turn, and what moved. */
#include "reo.h"

#include <inttypes.h>
#include <stdio.h>
#include <string.h>

static const char ROUTER[] =
    "connector main(in source: int 0..9, out left: int 0..9, out right: int 0..9) {\n"
    "  node to_left: int 0..9;\n"
    "  node to_right: int 0..9;\n"
    "  node chosen: int 0..9;\n"
    "  lossy source to_left;\n"
    "  lossy source to_right;\n"
    "  sync to_left left;\n"
    "  sync to_left chosen;\n"
    "  sync to_right right;\n"
    "  sync to_right chosen;\n"
    "  syncdrain source chosen;\n"
    "}\n";

static const char *const NAMES[] = {"source", "left", "right"};

/* A number in words on standard error. */
static int fail(const char *what, uint32_t number) {
    uint8_t words[32];
    size_t length = reo_words(number, words, sizeof words);
    if (length > sizeof words)
        length = sizeof words;
    fprintf(stderr, "%s: %.*s\n", what, (int)length, (const char *)words);
    return 1;
}

/* One write at the source and one take at a side, and the round that follows. */
static int go(struct reo_handle *router, const size_t *ports, const char *item, int side) {
    uint32_t number = reo_write(router, ports[0], (const uint8_t *)item, strlen(item));
    if (number != REO_DONE)
        return fail("write", number);
    number = reo_take(router, ports[side]);
    if (number != REO_DONE)
        return fail("take", number);
    struct reo_round round = {0};
    number = reo_round(router, 999999999999999999, &round);
    if (number != REO_DONE)
        return fail("round", number);
    printf("round %" PRIu64 ":", round.number);
    for (size_t i = 0; i < round.moves; i++) {
        size_t port = 0, length = 0;
        uint8_t text[64];
        number = reo_moved(router, i, &port);
        if (number != REO_DONE)
            return fail("moved", number);
        number = reo_item(router, i, text, sizeof text, &length);
        if (number != REO_DONE)
            return fail("item", number);
        if (length > sizeof text)
            length = sizeof text;
        for (int name = 0; name < 3; name++)
            if (ports[name] == port)
                printf(" %s %.*s", NAMES[name], (int)length, (const char *)text);
    }
    printf("\n");
    return 0;
}

int main(void) {
    struct reo_handle router = {0};
    uint8_t cause[256];
    size_t length = 0, ports[3];
    uint32_t number = reo_open(&router, (const uint8_t *)ROUTER, sizeof ROUTER - 1, cause,
                               sizeof cause, &length);
    if (number != REO_DONE)
        return fail("open", number);
    for (int i = 0; i < 3; i++) {
        number = reo_port(&router, (const uint8_t *)NAMES[i], strlen(NAMES[i]), &ports[i]);
        if (number != REO_DONE)
            return fail(NAMES[i], number);
    }
    int status = go(&router, ports, "1", 1) || go(&router, ports, "2", 2) ||
                 go(&router, ports, "3", 1);
    reo_close(&router);
    return status;
}
