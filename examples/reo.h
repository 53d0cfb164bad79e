/* The engine for programs in C: the calls of the static library `reo_c`.
 *
 * A handle holds one connector, or nothing. One handle is one connector's: it is moved with `=`
 * only if the old copy is not used again, and it is used by the thread alone that opened it, as
 * the items in it have owners that are counted. Before the first call all of its bytes are zero, as
 * `struct reo_handle router = {0};` makes them. Its fields are the library's.
 *
 * No pointer is null, also where its length is 0, and what two pointers of one call point to does
 * not overlap. A text is bytes and their count; no byte ends it. No call aborts, blocks, or keeps a
 * pointer that it was given but for the handle's own memory, which comes from `malloc`.
 *
 * Each call that returns `uint32_t` answers REO_DONE, or why it did nothing. REO_CLOSED and
 * REO_NO_MEMORY may come from each of these, and are not named again below. */
#ifndef REO_H
#define REO_H

#include <stdbool.h>
#include <stddef.h>
#include <stdint.h>

#ifdef __cplusplus
extern "C" {
#endif

/* What a call answers. */
enum {
    REO_DONE = 0,          /* it was done */
    REO_CLOSED = 1,        /* nothing is open in the handle */
    REO_REFUSED = 2,       /* the text says no circuit that is accepted */
    REO_TOO_LONG = 3,      /* the text has more than 1,048,576 bytes */
    REO_NO_PORT = 4,       /* no port has this name or this number */
    REO_WRONG_WAY = 5,     /* a write at an `out` port, or a take at an `in` port */
    REO_PENDING = 6,       /* an offer is pending at the port */
    REO_NO_ITEM = 8,       /* no item of the port's type has this text, or there is no such port */
    REO_NOT_PENDING = 9,   /* nothing is pending at the port, or there is no such port */
    REO_WIDE = 10,         /* at a joint of a part more than 256 items can stand */
    REO_SPENT = 11,        /* a part of the circuit weighs more than the budget */
    REO_LARGE_BUDGET = 12, /* the budget is 10^18 or more */
    REO_NO_ROUND = 13,     /* the connector has made 2^63 rounds */
    REO_NO_MOVE = 14,      /* there is no move of this index */
    REO_NO_MEMORY = 15     /* out of memory; the call may be made again */
};

/* A connector, or nothing. */
struct reo_handle {
    bool full;
    void *at;
};

/* What a round was. */
struct reo_round {
    uint64_t number; /* its number, from 1 */
    size_t moves;    /* how many ports flowed */
    size_t jammed;   /* how many sides jammed */
    bool idle;       /* whether nothing flowed at all */
};

/* Closes what is open in the handle, and opens the connector that a circuit text of either version
 * says, at its first round, with nothing offered. REO_REFUSED: the line and the words of the cause,
 * as `reo check` writes them, are laid into `room` as far as they fit, and `*length` becomes their
 * whole length; elsewhere both stay. REO_TOO_LONG. Where it answers anything but REO_DONE, nothing
 * is open. */
uint32_t reo_open(struct reo_handle *handle, const uint8_t *text, size_t text_length,
                  uint8_t *room, size_t room_length, size_t *length);

/* Closes what is open in the handle, if anything is, and gives all of its memory back. */
void reo_close(struct reo_handle *handle);

/* The number of the port of a name, in `*port`. REO_NO_PORT: `*port` stays. */
uint32_t reo_port(struct reo_handle *handle, const uint8_t *name, size_t name_length,
                  size_t *port);

/* Offers to write, at a port, the item of its type that has this text, as traces write items: `3`,
 * `true`, `red`, `"a text"`, `(1,2)`, `unit`. REO_NO_ITEM, REO_WRONG_WAY, REO_PENDING: nothing
 * changes. */
uint32_t reo_write(struct reo_handle *handle, size_t port, const uint8_t *text,
                   size_t text_length);

/* Offers to take an item at a port. REO_NO_PORT, REO_WRONG_WAY, REO_PENDING: nothing changes. */
uint32_t reo_take(struct reo_handle *handle, size_t port);

/* Takes the offer that is pending at a port back. REO_NOT_PENDING. */
uint32_t reo_withdraw(struct reo_handle *handle, size_t port);

/* Makes the round that comes next, that of the first colouring, and tells in `*round` what it was.
 * The offers of the ports that flowed are gone; the others are pending still. The budget bounds the
 * weight of a part and not the work: give 10^18 - 1, unless heavier parts are to be refused. An
 * exclusive router of n ways weighs 5^n; a tree of routers of two ways with buffers between its
 * stages at most 25. REO_WIDE, REO_SPENT, REO_LARGE_BUDGET, REO_NO_ROUND: nothing changes, and
 * `*round` stays. */
uint32_t reo_round(struct reo_handle *handle, uint64_t budget, struct reo_round *round);

/* The port of a move of the round that was made last, in `*port`. Moves count from 0, in the order
 * of their ports. REO_NO_MOVE: `*port` stays. */
uint32_t reo_moved(struct reo_handle *handle, size_t index, size_t *port);

/* The text of a move's item: laid into `room` as far as it fits, and its whole length in `*length`.
 * REO_NO_MOVE, REO_NO_MEMORY: both stay. */
uint32_t reo_item(struct reo_handle *handle, size_t index, uint8_t *room, size_t room_length,
                  size_t *length);

/* The words of a number that a call answered: laid into `room` as far as they fit. It returns their
 * whole length, and 0 where no call answers so. */
size_t reo_words(uint32_t number, uint8_t *room, size_t room_length);

#ifdef __cplusplus
}
#endif

#endif
