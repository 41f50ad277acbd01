/* The calls that build, each with every property checked after it; a broken one is told and stops the program. */
#ifndef FUZZ_BUILD_CALLS_H
#define FUZZ_BUILD_CALLS_H

#include "build_rules.h"
#include "desk_calls.h"

/* A key maker's numbers as they are lent: memory of exactly their length. */
struct maker {
    uint64_t *numbers, was[8];
    size_t count;
};

struct maker new_maker(size_t count);
void free_maker(struct maker *m);
void maker_changed(struct maker *m);

/* text, sent and batch are rooms; each holds what was written where the call is served, and stays else */
uint32_t build_esi(const struct lent *held, const struct given *g, struct lent *text, struct lent *sent);
uint32_t build_suo(const struct lent *held, struct maker *maker, const struct given *g, struct lent *text, struct lent *batch);
uint32_t add_record(struct lent *batch, const uint8_t *record, size_t n);
uint32_t build_var(const struct lent *batch, uint32_t request, struct lent *text, struct lent *sent);

/* Has the figures printed at the end. */
void prepare_builder(void);

#endif
