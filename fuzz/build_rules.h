/* The rules that the calls that build are held against, written from the header and docs/FORMAT.md apart from the proved code. */
#ifndef FUZZ_BUILD_RULES_H
#define FUZZ_BUILD_RULES_H

#include "desk_rules.h"

/* Where things stand in a batch, behind its SUO. */
enum { BATCH_ONCE = 128, BATCH_WORKING = 136, BATCH_CHAIN = 144, BATCH_BLOCK = 152, BATCH_COUNT = 160 };

/* What an ESI and a SUO are given; each looks at its own part. `last` is the request or the area. */
struct given {
    const uint8_t *software, *method, *stamp;
    size_t software_length, method_length, stamp_length;
    uint32_t last;
    uint64_t clock;
};

/* Why these bytes are no batch's; null where they are. */
const char *no_batch(const uint8_t *batch, size_t length);

/* 11, 13 or 0. The lengths of the rooms are looked at elsewhere. */
uint32_t esi_refusal(const uint8_t *held, size_t held_length, const struct given *g);
uint32_t suo_refusal(const uint8_t *held, size_t held_length, size_t makers, const struct given *g);
uint32_t var_refusal(const uint8_t *batch, size_t batch_length, uint32_t request);

void esi_by_rule(uint8_t text[LP_ESI_SIZE], const uint8_t *held, const struct given *g);
/* The SUO is the batch's first bytes; the maker moves on. */
void suo_by_rule(uint8_t batch[LP_BATCH_SIZE], uint64_t maker[LP_MAKER_SIZE], const uint8_t *held, const struct given *g);
void record_by_rule(uint8_t batch[LP_BATCH_SIZE], const uint8_t *record, size_t n);
void var_by_rule(uint8_t text[LP_VAR_SIZE], const uint8_t *batch, uint32_t request);

#endif
