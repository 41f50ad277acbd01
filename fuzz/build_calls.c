#include "build_calls.h"
#include <inttypes.h>
#include <stdio.h>
#include <stdlib.h>
#include <string.h>

enum build_call { BUILD_ESI, BUILD_SUO, ADD_RECORD, BUILD_VAR, BUILD_CALLS };
static const char *const names[BUILD_CALLS] = {"lp_build_esi", "lp_build_suo", "lp_add_record", "lp_build_var"};

static uint64_t counts[BUILD_CALLS][3];
/* Seen by libFuzzer as coverage: what a call gave, how full the last block is. */
__attribute__((section("__libfuzzer_extra_counters"))) static uint8_t shown[BUILD_CALLS * 3 + 8];

static void figures(void) {
    for (int c = 0; c < BUILD_CALLS; c++)
        fprintf(stderr, "fuzz: %-14s served %" PRIu64 ", refused 11: %" PRIu64 ", 13: %" PRIu64 "\n", names[c], counts[c][0], counts[c][1], counts[c][2]);
}

void prepare_builder(void) {
    if (lp_batch_size() != LP_BATCH_SIZE) broken("the size of a batch", "lp_batch_size");
    atexit(figures);
}

struct maker new_maker(size_t count) {
    struct maker m = {malloc(count * sizeof *m.numbers), {0}, count};
    if (!m.numbers && count) abort();
    for (size_t i = 0; i < count; i++) m.numbers[i] = 0;
    return m;
}

void free_maker(struct maker *m) { free(m->numbers); }

void maker_changed(struct maker *m) {
    if (m->count) memcpy(m->was, m->numbers, m->count * sizeof *m->numbers);
}

static int moved(const struct maker *m) { return m->count && memcmp(m->numbers, m->was, m->count * sizeof *m->numbers); }
static int differ(const struct lent *l) { return l->length && memcmp(l->bytes, l->was, l->length); }

static uint8_t *copy_of(const void *bytes, size_t n) {
    uint8_t *copy = malloc(n);
    if (!copy && n) abort();
    if (n) memcpy(copy, bytes, n);
    return copy;
}

/* A const argument is lent as a copy of exactly its length and looked at again afterwards. */
static void take_back(uint8_t *copy, const void *bytes, size_t n, enum build_call c) {
    if (FAULT == 58 && n) copy[n - 1] ^= 1;
    if (n && memcmp(copy, bytes, n)) broken("a const argument of a call that builds changed", names[c]);
    free(copy);
}

static uint32_t spoil_told(uint32_t told) {
    if (FAULT == 59 && told == 13) return 12;
    if (FAULT == 60 && told == 13) return 11;
    return told;
}

/* What was told is listed for the call and holds by the rules. */
static void check_told(enum build_call c, uint32_t told, uint32_t expected) {
    if (told != 0 && told != 11 && (told != 13 || c == ADD_RECORD)) broken("a number that the header doesn't list for a call that builds", names[c]);
    int i = told == 0 ? 0 : told == 11 ? 1 : 2;
    counts[c][i]++;
    shown[3 * c + i]++;
    if (told == expected) return;
    fprintf(stderr, "fuzz: gives %" PRIu32 ", by the rules %" PRIu32 "\n", told, expected);
    broken("not the refusal of a call that builds", names[c]);
}

/* A room by what was told: as the rules give it, or as it was. */
static void check_room(enum build_call c, struct lent *room, uint32_t told, const uint8_t *by_rule, const char *refused, const char *served) {
    if (told) {
        if (differ(room)) broken(refused, names[c]);
        return;
    }
    memcpy(room->was, by_rule, room->length);
    if (differ(room)) broken(served, names[c]);
}

static void check_text(enum build_call c, struct lent *text, uint32_t told, const uint8_t *by_rule) {
    if (FAULT == 61 && told && text->length) text->bytes[text->length - 1] ^= 1;
    if (FAULT == 65 && !told && c == BUILD_ESI) text->bytes[150] ^= 1;
    if (FAULT == 69 && !told && c == BUILD_VAR) text->bytes[130] ^= 1;
    check_room(c, text, told, by_rule, "a refused call wrote a message", "a message isn't what the rules give");
}

static void check_sent(enum build_call c, struct lent *sent, uint32_t told, const uint8_t *first, const uint8_t *closing) {
    uint8_t by_rule[LP_SENT_SIZE];
    if (FAULT == 62 && told && sent->length) sent->bytes[0] ^= 1;
    if (FAULT == 66 && !told) sent->bytes[SENT_STAMP] ^= 1;
    if (!told) sent_by_rule(by_rule, first, closing);
    check_room(c, sent, told, by_rule, "a refused call wrote what is to be sent", "what is to be sent isn't what the rules give");
}

uint32_t build_esi(const struct lent *held, const struct given *g, struct lent *text, struct lent *sent) {
    uint8_t *software = copy_of(g->software, g->software_length), *stamp = copy_of(g->stamp, g->stamp_length), by_rule[LP_ESI_SIZE];
    uint32_t expected = esi_refusal(held->was, held->length, g);
    if (text->length != LP_ESI_SIZE || sent->length != LP_SENT_SIZE) expected = 11;
    uint32_t told = lp_build_esi(held->bytes, held->length, software, g->software_length, stamp, g->stamp_length, g->last, text->bytes,
                                 text->length, sent->bytes, sent->length);
    take_back(software, g->software, g->software_length, BUILD_ESI);
    take_back(stamp, g->stamp, g->stamp_length, BUILD_ESI);
    told = spoil_told(told);
    check_told(BUILD_ESI, told, expected);
    if (differ(held)) broken("a call that builds changed the desk", names[BUILD_ESI]);
    if (!told) esi_by_rule(by_rule, held->was, g);
    check_text(BUILD_ESI, text, told, by_rule);
    check_sent(BUILD_ESI, sent, told, by_rule, by_rule);
    return told;
}

/* The maker moves on exactly where the SUO is served. */
static void check_maker(struct maker *maker, uint32_t told, const uint64_t *by_rule) {
    if (FAULT == 64 && told && maker->count) maker->numbers[maker->count - 1] ^= 1;
    if (FAULT == 68 && !told) maker->numbers[1] = maker->was[1];
    if (told && moved(maker)) broken("a refused call moved the maker", names[BUILD_SUO]);
    if (!told && (maker->numbers[0] != by_rule[0] || maker->numbers[1] != by_rule[1]))
        broken("the maker doesn't stand where the rules have it", names[BUILD_SUO]);
    maker_changed(maker);
}

uint32_t build_suo(const struct lent *held, struct maker *maker, const struct given *g, struct lent *text, struct lent *batch) {
    /* fault 71 lends less memory than is said: the address checks in the module have to see it */
    size_t lent = FAULT == 71 && g->stamp_length ? g->stamp_length - 1 : g->stamp_length;
    uint8_t *software = copy_of(g->software, g->software_length), *method = copy_of(g->method, g->method_length);
    uint8_t *stamp = copy_of(g->stamp, lent), by_rule[LP_BATCH_SIZE];
    uint64_t later[LP_MAKER_SIZE] = {maker->was[0], maker->was[1]};
    uint32_t expected = suo_refusal(held->was, held->length, maker->count, g);
    if (text->length != LP_SUO_SIZE || batch->length != LP_BATCH_SIZE) expected = 11;
    uint32_t told = lp_build_suo(held->bytes, held->length, maker->numbers, maker->count, g->clock, software, g->software_length, method,
                                 g->method_length, stamp, g->stamp_length, g->last, text->bytes, text->length, batch->bytes, batch->length);
    take_back(software, g->software, g->software_length, BUILD_SUO);
    take_back(method, g->method, g->method_length, BUILD_SUO);
    take_back(stamp, g->stamp, lent, BUILD_SUO);
    told = spoil_told(told);
    check_told(BUILD_SUO, told, expected);
    if (differ(held)) broken("a call that builds changed the desk", names[BUILD_SUO]);
    if (!told) suo_by_rule(by_rule, later, held->was, g);
    check_maker(maker, told, later);
    if (FAULT == 63 && told && batch->length) batch->bytes[0] ^= 1;
    if (FAULT == 67 && !told) batch->bytes[BATCH_ONCE] ^= 3;
    check_text(BUILD_SUO, text, told, by_rule);
    check_room(BUILD_SUO, batch, told, by_rule, "a refused call wrote a batch", "a batch isn't what the rules give");
    if (!told && no_batch(batch->bytes, batch->length)) broken("a served call left no batch", names[BUILD_SUO]);
    return told;
}

uint32_t add_record(struct lent *batch, const uint8_t *record, size_t n) {
    uint8_t *copy = copy_of(record, n), by_rule[LP_BATCH_SIZE];
    uint32_t expected = no_batch(batch->was, batch->length) ? 11 : 0;
    uint32_t told = lp_add_record(batch->bytes, batch->length, copy, n);
    take_back(copy, record, n, ADD_RECORD);
    check_told(ADD_RECORD, told, expected);
    if (!told) {
        memcpy(by_rule, batch->was, LP_BATCH_SIZE);
        record_by_rule(by_rule, record, n);
        shown[3 * BUILD_CALLS + by_rule[BATCH_COUNT] % 8]++;
    }
    if (FAULT == 70 && !told && n) batch->bytes[BATCH_COUNT] ^= 1;
    if (FAULT == 76 && told && batch->length) batch->bytes[batch->length - 1] ^= 1;
    check_room(ADD_RECORD, batch, told, by_rule, "a refused record changed the batch", "a record leaves another batch than the rules give");
    return told;
}

uint32_t build_var(const struct lent *batch, uint32_t request, struct lent *text, struct lent *sent) {
    uint8_t by_rule[LP_VAR_SIZE];
    uint32_t expected = var_refusal(batch->was, batch->length, request);
    if (text->length != LP_VAR_SIZE || sent->length != LP_SENT_SIZE) expected = 11;
    uint32_t told = lp_build_var(batch->bytes, batch->length, request, text->bytes, text->length, sent->bytes, sent->length);
    told = spoil_told(told);
    check_told(BUILD_VAR, told, expected);
    if (FAULT == 77 && !told) batch->bytes[BATCH_COUNT] ^= 1;
    if (differ(batch)) broken("a VAR changed its batch", names[BUILD_VAR]);
    if (!told) var_by_rule(by_rule, batch->was, request);
    check_text(BUILD_VAR, text, told, by_rule);
    check_sent(BUILD_VAR, sent, told, batch->was, by_rule);
    return told;
}
