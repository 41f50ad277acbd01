#include "desk_calls.h"
#include <inttypes.h>
#include <stdio.h>
#include <stdlib.h>
#include <string.h>

enum desk_call { HELD_OPEN, HELD_ENTER, HELD_VALUES, SENT_OF, CHECK_ESI, CHECK_PTE, DESK_CALLS };
static const char *const names[DESK_CALLS] = {"lp_held_open", "lp_held_enter", "lp_held_values", "lp_sent_of", "lp_check_esi", "lp_check_pte"};
/* The numbers that the header lists for each call; 0 ends a list, and is given by all. */
enum { LISTED = 12 };
static const uint16_t listed[DESK_CALLS][LISTED] = {
    {8, 9, 11},
    {8, 9, 10, 11},
    {11},
    {11},
    {11, 3010, 3011, 3020, 3021, 3022, 3030, 3032},
    {11, 3010, 3011, 3020, 3021, 3027, 3028, 3029, 3030, 3032},
};

static uint64_t counts[DESK_CALLS][LISTED], kept;
/* Seen by libFuzzer as coverage: what a call gave, and the field that it named. */
__attribute__((section("__libfuzzer_extra_counters"))) static uint8_t shown[DESK_CALLS * LISTED + 2 * 256];

static void figures(void) {
    for (int c = 0; c < DESK_CALLS; c++) {
        fprintf(stderr, "fuzz: %-14s", names[c]);
        for (int i = 0; i < LISTED; i++)
            if (counts[c][i]) fprintf(stderr, " %d: %" PRIu64, listed[c][i], counts[c][i]);
        fprintf(stderr, "\n");
    }
    fprintf(stderr, "fuzz: keys kept %" PRIu64 "\n", kept);
}

void prepare_desk(void) {
    if (lp_held_size() != LP_HELD_SIZE || lp_sent_size() != LP_SENT_SIZE) broken("the size of a desk or of what was sent", "lp_held_size");
    atexit(figures);
}

static void *memory(size_t n) {
    void *m = malloc(n);
    if (!m && n) abort();
    return m;
}

struct lent new_lent(size_t length) {
    struct lent l = {memory(length), memory(length), length};
    if (length) memset(l.bytes, 0, length), memset(l.was, 0, length);
    return l;
}

void free_lent(struct lent *l) {
    free(l->bytes);
    free(l->was);
}

void lent_changed(struct lent *l) {
    if (l->length) memcpy(l->was, l->bytes, l->length);
}

static int differ(const struct lent *l) { return l->length && memcmp(l->bytes, l->was, l->length); }

static uint8_t *copy_of(const void *bytes, size_t n) {
    uint8_t *copy = memory(n);
    if (n) memcpy(copy, bytes, n);
    return copy;
}

/* A const argument is lent as a copy of exactly its length and looked at again afterwards. */
static void take_back(uint8_t *copy, const void *bytes, size_t n, enum desk_call c) {
    if (FAULT == 38 && n) copy[n - 1] ^= 1;
    if (n && memcmp(copy, bytes, n)) broken("a const argument of a desk's call changed", names[c]);
    free(copy);
}

/* What was told is listed for the call and holds by the rules. */
static void check_told(enum desk_call c, uint32_t told, uint32_t expected) {
    int i = 0;
    while (listed[c][i] && listed[c][i] != told) i++;
    if (listed[c][i] != told) broken("a number that the header doesn't list for this call", names[c]);
    counts[c][i]++;
    shown[c * LISTED + i]++;
    if (told == expected) return;
    fprintf(stderr, "fuzz: gives %" PRIu32 ", by the rules %" PRIu32 "\n", told, expected);
    broken("not the finding or refusal that holds", names[c]);
}

static uint32_t spoil_told(uint32_t told) {
    if (FAULT == 39 && told >= 3010) return 3999;
    if (FAULT == 40 && told == 3011) return 3010;
    return told;
}

static uint32_t check_keys(enum desk_call c, struct lent *held, const struct parts *p, uint32_t told, uint32_t expected) {
    if (FAULT == 41 && told && held->length) held->bytes[held->length / 2] ^= 1;
    if (FAULT == 42 && !told) held->bytes[OWN_TRANSPORT + KEY] ^= 1;
    if (FAULT == 43 && !told) held->bytes[OWN_WORKING + KEY] ^= 3;
    check_told(c, told, expected);
    if (told) {
        if (differ(held)) broken("a refused call changed the desk", names[c]);
        return told;
    }
    const char *why = no_desk(held->bytes, held->length);
    if (why) {
        fprintf(stderr, "fuzz: %s\n", why);
        broken("a served call left no desk", names[c]);
    }
    (c == HELD_OPEN ? held_open_by_rule : held_enter_by_rule)(held->was, p);
    if (differ(held)) broken("a served call left another desk than the rules give", names[c]);
    return 0;
}

uint32_t held_open(struct lent *held, const struct parts *p) {
    uint8_t *own = copy_of(p->own, p->own_length), *bank = copy_of(p->bank, p->bank_length);
    uint32_t expected = held_open_refusal(held->length, p);
    uint32_t told = lp_held_open(held->bytes, held->length, own, p->own_length, bank, p->bank_length, p->part1, p->part2, p->check,
                                 p->generation);
    take_back(own, p->own, p->own_length, HELD_OPEN);
    take_back(bank, p->bank, p->bank_length, HELD_OPEN);
    return check_keys(HELD_OPEN, held, p, told, expected);
}

uint32_t held_enter(struct lent *held, const struct parts *p) {
    uint32_t expected = held_enter_refusal(held->was, held->length, p);
    uint32_t told = lp_held_enter(held->bytes, held->length, p->part1, p->part2, p->check, p->generation);
    return check_keys(HELD_ENTER, held, p, told, expected);
}

/* Numbers lent, each marked before the call. */
enum { NUMBER_MARK = 0xA5A5 };
static uint32_t *numbers_to_lend(size_t n) {
    uint32_t *numbers = memory(n * sizeof *numbers);
    for (size_t i = 0; i < n; i++) numbers[i] = NUMBER_MARK;
    return numbers;
}

static int are_marked(const uint32_t *numbers, size_t n) {
    for (size_t i = 0; i < n; i++)
        if (numbers[i] != NUMBER_MARK) return 0;
    return 1;
}

uint32_t held_values(struct lent *held, size_t numbers) {
    uint32_t *values = numbers_to_lend(numbers), by_rule[LP_VALUES];
    int served = !no_desk(held->was, held->length) && numbers == LP_VALUES;
    uint32_t told = lp_held_values(held->bytes, held->length, values, numbers);
    if (FAULT == 56 && !told) values[LP_VALUE_WORKING_CHECK] ^= 1;
    if (FAULT == 57 && told && numbers) values[0] = 0;
    check_told(HELD_VALUES, told, served ? 0 : 11);
    if (differ(held)) broken("a desk changed by being told", "lp_held_values");
    if (!served && !are_marked(values, numbers)) broken("a refused call changed the values", "lp_held_values");
    if (served) values_by_rule(by_rule, held->was);
    if (served && memcmp(values, by_rule, sizeof by_rule)) broken("the values told aren't those of the current keys", "lp_held_values");
    free(values);
    return told;
}

uint32_t sent_of(const uint8_t *first, size_t first_length, const uint8_t *closing, size_t closing_length, struct lent *sent) {
    uint8_t *a = copy_of(first, first_length), *b = copy_of(closing, closing_length);
    uint32_t expected = sent_refusal(first, first_length, closing, closing_length, sent->length);
    uint32_t told = lp_sent_of(a, first_length, b, closing_length, sent->bytes, sent->length);
    take_back(a, first, first_length, SENT_OF);
    take_back(b, closing, closing_length, SENT_OF);
    if (FAULT == 44 && !told) sent->bytes[SENT_DIGEST] ^= 1;
    if (FAULT == 53 && told && sent->length) sent->bytes[sent->length - 1] ^= 1;
    check_told(SENT_OF, told, expected);
    if (!told) sent_by_rule(sent->was, first, closing);
    if (differ(sent)) broken(told ? "a refused call changed what was sent" : "what was sent isn't what the rules give", "lp_sent_of");
    return told;
}

/* The desk and the words after a check, `was` being the desk before it. */
static void check_served(enum desk_call c, struct lent *held, const uint8_t *reply, size_t n, uint32_t told, const uint32_t *word,
                         const uint32_t *by_rule, const uint8_t *later) {
    if (FAULT == 45 && told) held->bytes[OWN_WORKING + KEY] ^= 3;
    if (FAULT == 46) held->bytes[OWN_WORKING + KEY] ^= 1;
    const char *why = no_desk(held->bytes, held->length);
    if (why) {
        fprintf(stderr, "fuzz: %s\n", why);
        broken("a check left no desk", names[c]);
    }
    if (differ(held) && (told || n < 177 || reply[160] != '1')) broken("a desk's keys changed though no key was to be kept", names[c]);
    if (FAULT == 47 && differ(held)) held->bytes[OWN_WORKING + KEY] ^= 3;
    kept += differ(held) != 0;
    memcpy(held->was, later, held->length);
    if (differ(held)) broken("an enclosed key isn't kept as the rules give", names[c]);
    if (memcmp(word, by_rule, LP_WORDS * sizeof *word)) broken("the field, letter or code told isn't the reply's", names[c]);
}

uint32_t check_reply(int pte, struct lent *held, const struct lent *sent, const uint8_t *reply, size_t n, size_t words) {
    enum desk_call c = pte ? CHECK_PTE : CHECK_ESI;
    /* fault 50 lends less memory than is said: the address checks in the module have to see it */
    size_t reply_lent = FAULT == 50 && n ? n - 1 : n;
    uint8_t *copy = copy_of(reply, reply_lent), later[LP_HELD_SIZE];
    uint32_t *word = numbers_to_lend(words), by_rule[LP_WORDS] = {0}, expected = 11;
    int served = !no_desk(held->was, held->length) && sent->length == LP_SENT_SIZE && words == LP_WORDS;
    if (served) {
        memcpy(later, held->was, sizeof later);
        expected = check_by_rule(pte, later, sent->was, reply, n, by_rule);
        if (by_rule[LP_WORD_FIELD]) shown[DESK_CALLS * LISTED + 256 * pte + by_rule[LP_WORD_FIELD]]++;
    }
    uint32_t told = (pte ? lp_check_pte : lp_check_esi)(held->bytes, held->length, sent->bytes, sent->length, copy, n, word, words);
    take_back(copy, reply, reply_lent, c);
    told = spoil_told(told);
    if (FAULT == 48 && told == 11 && words) word[words - 1] ^= 1;
    if (FAULT == 49 && told != 11) word[LP_WORD_LETTER] ^= 1;
    if (FAULT == 54 && sent->length) sent->bytes[0] ^= 1;
    if (FAULT == 55 && told == 11 && held->length) held->bytes[0] ^= 1;
    check_told(c, told, expected);
    if (differ(sent)) broken("a check changed what was sent", names[c]);
    if (served) check_served(c, held, reply, n, told, word, by_rule, later);
    else if (differ(held)) broken("a refused check changed the desk", names[c]);
    if (!served && !are_marked(word, words)) broken("a refused check changed the words", names[c]);
    free(word);
    return told;
}
