/* The rules that the desk's calls are held against, written from the header and docs/FORMAT.md apart from the proved code. */
#ifndef FUZZ_DESK_RULES_H
#define FUZZ_DESK_RULES_H

#include "lentilpot.h"
#include "rules.h"

/* Where things stand in a desk; the keys of a kind begin as a customer's do in the table. */
enum { OWN = 0, OWN_BANK = 25, OWN_TRANSPORT = 50, OWN_WORKING = 69, OWN_KEYS_SIZE = 19 };
/* And in what was sent. */
enum {
    SENT_RECEIVER = 0,
    SENT_SENDER = 25,
    SENT_TRANSPORT = 50,
    SENT_WORKING = 51,
    SENT_STAMP = 52,
    SENT_AREA = 67,
    SENT_ONCE = 68,
    SENT_DIGEST = 84
};

/* What opening and entering are asked; entering has no names. */
struct parts {
    const uint8_t *own, *bank;
    size_t own_length, bank_length;
    uint64_t part1, part2;
    uint32_t check, generation;
};

/* A field of a reply: ten times its number and the part, where it lies. */
struct field {
    uint16_t number, at, length;
};
enum { FIELD_COUNT = 23 };
extern const struct field fields[FIELD_COUNT];

size_t layout_of(int pte);

/* Why these bytes are no desk's; null where they are. */
const char *no_desk(const uint8_t *held, size_t length);
/* The desk that the bank's table tells of: a customer's record, and the bank's name. */
void desk_of(uint8_t held[LP_HELD_SIZE], const uint8_t *customer, const uint8_t *bank);

uint32_t held_open_refusal(size_t held_length, const struct parts *p);
uint32_t held_enter_refusal(const uint8_t *held, size_t held_length, const struct parts *p);
void held_open_by_rule(uint8_t *held, const struct parts *p);
void held_enter_by_rule(uint8_t *held, const struct parts *p);

/* Generations and check values of the current keys, transport first. */
void values_by_rule(uint32_t values[LP_VALUES], const uint8_t *held);

uint32_t sent_refusal(const uint8_t *first, size_t first_length, const uint8_t *closing, size_t closing_length, size_t sent_length);
void sent_by_rule(uint8_t *sent, const uint8_t *first, const uint8_t *closing);

/* What a check of a desk's bytes gives; `held` becomes the desk afterwards. */
uint32_t check_by_rule(int pte, uint8_t *held, const uint8_t *sent, const uint8_t *reply, size_t n, uint32_t word[LP_WORDS]);

#endif
