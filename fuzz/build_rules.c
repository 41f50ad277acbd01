#include "build_rules.h"
#include "des.h"
#include "messages.h"
#include <string.h>

static int all(const uint8_t *text, size_t n, int (*test)(uint8_t)) {
    while (n--)
        if (!test(text[n])) return 0;
    return 1;
}

static int is_digit(uint8_t c) { return c >= '0' && c <= '9'; }
static int is_hex(uint8_t c) { return is_digit(c) || (c >= 'A' && c <= 'F'); }
static int is_blank(uint8_t c) { return c == ' '; }

static int is_software(const uint8_t *text) { return all(text, 16, field_character) && !all(text, 16, is_blank); }
static int is_method(const uint8_t *text) { return !memcmp(text, LP_SKH, 3) || !memcmp(text, LP_SKE, 3); }
static int is_stamp(const uint8_t *text) {
    return all(text, 15, is_digit) && real_date((uint32_t)digits_at(text, 6)) && real_time((uint32_t)digits_at(text + 6, 6));
}

const char *no_batch(const uint8_t *b, size_t length) {
    if (length != LP_BATCH_SIZE) return "another length than 168";
    if (!all(b, 128, field_character)) return "a character of the SUO";
    if (!all(b + 5, 6, is_digit) || !all(b + 85, 2, is_digit) || !all(b + 112, 16, is_hex)) return "a number in the SUO";
    if ((!memcmp(b + 8, "110", 3) || !memcmp(b + 8, "120", 3)) && memcmp(b + 5, "128", 3)) return "the SUO's length";
    if (memcmp(b + 11, " 0000", 5) || !all(b + 103, 9, is_blank)) return "the SUO's fields that say nothing";
    if (!is_software(b + 16) || !is_method(b + 32) || !is_stamp(b + 87)) return "the SUO's software, method or stamp";
    if (b[102] != 'S' && b[102] != 'A') return "the SUO's area";
    return is_odd(number_at(b + BATCH_ONCE, 8)) && is_odd(number_at(b + BATCH_WORKING, 8)) ? NULL : "a key of even parity";
}

static uint32_t request_refusal(uint32_t request) {
    if (request > 255) return 11;
    return request >= '0' && request <= '2' ? 0 : 13;
}

uint32_t esi_refusal(const uint8_t *held, size_t held_length, const struct given *g) {
    uint32_t refusal = request_refusal(g->last);
    if (no_desk(held, held_length) || g->software_length != 16 || g->stamp_length != 15 || refusal == 11) return 11;
    return is_software(g->software) && is_stamp(g->stamp) ? refusal : 13;
}

uint32_t suo_refusal(const uint8_t *held, size_t held_length, size_t makers, const struct given *g) {
    if (no_desk(held, held_length) || makers != 2 || g->software_length != 16 || g->method_length != 3 || g->stamp_length != 15) return 11;
    if (g->last > 255) return 11;
    return is_software(g->software) && is_method(g->method) && is_stamp(g->stamp) && (g->last == 'S' || g->last == 'A') ? 0 : 13;
}

uint32_t var_refusal(const uint8_t *batch, size_t batch_length, uint32_t request) {
    return no_batch(batch, batch_length) ? 11 : request_refusal(request);
}

static void put_hex(uint8_t *out, uint64_t n) {
    for (int i = 0; i < 16; i++) out[i] = (uint8_t) "0123456789ABCDEF"[n >> (60 - 4 * i) & 15];
}

/* Fields 1 to 12, all else blank. */
static void begin(uint8_t *out, size_t n, const char *start, const uint8_t *held, const struct given *g, const void *method) {
    memset(out, ' ', n);
    memcpy(out, start, 16);
    memcpy(out + 16, g->software, 16);
    memcpy(out + 32, method, 3);
    memcpy(out + 35, held + OWN_BANK, 25);
    memcpy(out + 60, held + OWN, 25);
    out[85] = (uint8_t)('0' + held[OWN_TRANSPORT + GENERATION]);
    out[86] = (uint8_t)('0' + held[OWN_WORKING + GENERATION]);
    memcpy(out + 87, g->stamp, 15);
}

/* Checksum and request. Only field characters lie before them, so the internal code changes nothing. */
static void close(uint8_t *text, uint64_t key, uint32_t request) {
    put_hex(text + 144, mac(key, text, 144));
    text[160] = (uint8_t)request;
}

void esi_by_rule(uint8_t text[LP_ESI_SIZE], const uint8_t *held, const struct given *g) {
    begin(text, LP_ESI_SIZE, ">>ESI161120 0000", held, g, "SMH");
    close(text, number_at(held + OWN_WORKING + KEY, 8), g->last);
}

void suo_by_rule(uint8_t batch[LP_BATCH_SIZE], uint64_t maker[LP_MAKER_SIZE], const uint8_t *held, const struct given *g) {
    /* document 001, 5.3, as at an order of the bank's */
    uint64_t made = encipher(maker[0], encipher(maker[0], g->clock) ^ maker[1]), once = with_parity(made);
    maker[1] = encipher(maker[0], maker[1] ^ made);
    begin(batch, LP_SUO_SIZE, ">>SUO128120 0000", held, g, g->method);
    batch[102] = (uint8_t)g->last;
    put_hex(batch + 112, encipher(number_at(held + OWN_TRANSPORT + KEY, 8), once));
    memset(batch + BATCH_ONCE, 0, LP_BATCH_SIZE - BATCH_ONCE);
    put_number(batch + BATCH_ONCE, 8, once);
    put_number(batch + BATCH_WORKING, 8, number_at(held + OWN_WORKING + KEY, 8));
}

void record_by_rule(uint8_t batch[LP_BATCH_SIZE], const uint8_t *record, size_t n) {
    uint64_t once = number_at(batch + BATCH_ONCE, 8), chain = number_at(batch + BATCH_CHAIN, 8);
    uint64_t block = number_at(batch + BATCH_BLOCK, 8), count = number_at(batch + BATCH_COUNT, 8);
    while (batch[34] == 'H' && n && record[n - 1] == ' ') n--;
    for (size_t i = 0; i < n; i++, count++) {
        block = block << 8 | internal_code(record[i]);
        if (count % 8 == 7) chain = encipher(once, chain ^ block), block = 0;
    }
    put_number(batch + BATCH_CHAIN, 8, chain);
    put_number(batch + BATCH_BLOCK, 8, block);
    put_number(batch + BATCH_COUNT, 8, count);
}

static uint64_t digest_so_far(const uint8_t *batch) {
    uint64_t chain = number_at(batch + BATCH_CHAIN, 8), count = number_at(batch + BATCH_COUNT, 8);
    if (!count) return 0;
    if (count % 8 == 0) return chain;
    return encipher(number_at(batch + BATCH_ONCE, 8), chain ^ number_at(batch + BATCH_BLOCK, 8) << 8 * (8 - count % 8));
}

void var_by_rule(uint8_t text[LP_VAR_SIZE], const uint8_t *batch, uint32_t request) {
    memset(text, ' ', LP_VAR_SIZE);
    memcpy(text, batch, LP_SUO_SIZE);
    memcpy(text, ">>VAR161", 8);
    memcpy(text + 32, "SMH", 3);
    put_hex(text + 128, digest_so_far(batch));
    close(text, number_at(batch + BATCH_WORKING, 8), request);
}
