/* A file on its way and the making of its bytes from the fuzzed choices. */
#ifndef FUZZ_SENDING_H
#define FUZZ_SENDING_H

#include "calls.h"

/* The fuzzed bytes as choices. Past their end every choice is 0, which is the plain good one. */
extern const uint8_t *source;
extern size_t source_left;
uint8_t next_byte(void);
uint32_t pick(uint32_t n);
int rarely(void); /* one time in sixteen: damages are to be rare enough that long runs of good messages come */
uint64_t wide(void);

extern struct bank bank;
extern uint32_t today;

enum { BYTES_MOST = 32768 };
/* The bytes that the customer sends and how many of them were taken. */
struct sending {
    struct file file;
    uint8_t bytes[BYTES_MOST];
    size_t size, taken;
    struct opening opening;
};

void name_of(uint8_t out[26], unsigned i);
void someone(uint8_t who[26]); /* who a call or message is about: mostly a customer of the table */

void append(struct sending *s, const uint8_t *bytes, size_t n);
void add_esi(struct sending *s);
/* numbered: with a stamp and a one-time key of its own, by the number */
void add_batch(struct sending *s, int numbered, uint32_t number);
void add_raw(struct sending *s);
void damage(struct sending *s);

size_t a_room(void);
size_t a_cut(void); /* bytes a read, 0 for all */

#endif
