/* The desk's calls, each with every property checked after it; a broken one is told and stops the program. */
#ifndef FUZZ_DESK_CALLS_H
#define FUZZ_DESK_CALLS_H

#include "calls.h"
#include "desk_rules.h"

/* Bytes as they are lent, a desk's or those of what was sent: memory of exactly their length. */
struct lent {
    uint8_t *bytes, *was;
    size_t length;
};

struct lent new_lent(size_t length);
void free_lent(struct lent *l);
void lent_changed(struct lent *l); /* to be called when anything but a call has written there */

uint32_t held_open(struct lent *held, const struct parts *p);
uint32_t held_enter(struct lent *held, const struct parts *p);
/* numbers: how many are lent */
uint32_t held_values(struct lent *held, size_t numbers);
uint32_t sent_of(const uint8_t *first, size_t first_length, const uint8_t *closing, size_t closing_length, struct lent *sent);
/* words: how many numbers are lent */
uint32_t check_reply(int pte, struct lent *held, const struct lent *sent, const uint8_t *reply, size_t n, size_t words);

/* Has the figures printed at the end. */
void prepare_desk(void);

#endif
