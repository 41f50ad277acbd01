/* The library's calls, each with every property checked after it; a broken one is told and stops the program. */
#ifndef FUZZ_CALLS_H
#define FUZZ_CALLS_H

#include "lentilpot.h"
#include "rules.h"

/* A planted fault: what the library gave back is spoilt before the checks, to see that each check bites (fuzz/try-faults). */
#ifndef FAULT
#define FAULT 0
#endif

/* A table as it is lent: memory of exactly its length, so that the address checks see each byte past it. */
struct bank {
    uint8_t *table, *was; /* was: its bytes before the next call */
    size_t length;
    int sound; /* what the rules say of `was` */
};

struct file {
    uint8_t *session, *was;
    size_t length;
};

struct answer {
    uint32_t refusal;
    size_t taken, reply_length;
    int finished;
    uint8_t reply[LP_REPLY_ROOM];
};

struct bank new_bank(size_t length);
void free_bank(struct bank *b);
void bank_changed(struct bank *b); /* to be called when anything but a call has written to the table */
struct file new_file(size_t length);
void free_file(struct file *f);
void file_changed(struct file *f);

/* The stamps accepted since the setting up; all but the first so many are forgotten where the table goes back too. */
size_t accepted_so_far(void);
void forget_accepted(size_t but);

uint32_t set_up(struct bank *b, const struct setting *s);
uint32_t add(struct bank *b, const struct asking *a);
uint32_t enter(struct bank *b, const struct asking *a);
uint32_t order(struct bank *b, const struct asking *a);
uint32_t open_file(struct bank *b, struct file *f, const struct opening *o);
/* room: the bytes lent for a reply */
void read_bytes(struct bank *b, struct file *f, const uint8_t *input, size_t n, size_t room, struct answer *a);
void end_file(struct bank *b, struct file *f, size_t room, struct answer *a);

_Noreturn void broken(const char *property, const char *call);
/* Readies the cipher and has the figures printed at the end. */
void prepare(void);

#endif
