#include "desk_rules.h"
#include "des.h"
#include <string.h>

const struct field fields[FIELD_COUNT] = {
    {10, 0, 5},    {20, 5, 3},    {30, 8, 3},    {40, 11, 1},   {50, 12, 4},    {60, 16, 16},   {70, 32, 3},  {81, 35, 17},
    {82, 52, 8},   {91, 60, 17},  {92, 77, 8},   {100, 85, 1},  {110, 86, 1},   {121, 87, 6},   {122, 93, 6}, {123, 99, 3},
    {130, 102, 1}, {140, 103, 9}, {150, 112, 16}, {160, 128, 16}, {170, 144, 16}, {180, 160, 1}, {190, 161, 16},
};

size_t layout_of(int pte) { return pte ? 317 : 237; }

static const char *no_desk_keys(const uint8_t *keys) {
    if (keys[GENERATION] > 9 || !is_odd(number_at(keys + KEY, 8))) return "a current key of a desk";
    if (keys[HELD] > 1) return "held is neither 0 nor 1";
    for (size_t i = OLD_GENERATION; i < OWN_KEYS_SIZE && !keys[HELD]; i++)
        if (keys[i]) return "bytes of a key before that isn't held";
    if (!keys[HELD]) return NULL;
    if (keys[OLD_GENERATION] > 9 || next_generation(keys[OLD_GENERATION]) != keys[GENERATION])
        return "the current generation doesn't follow the one before";
    return is_odd(number_at(keys + OLD_KEY, 8)) ? NULL : "a key before of even parity";
}

const char *no_desk(const uint8_t *held, size_t length) {
    if (length != LP_HELD_SIZE) return "another length than 88";
    if (!is_name(held + OWN, 17, 8) || !is_name(held + OWN_BANK, 17, 8)) return "a desk's names";
    const char *why = no_desk_keys(held + OWN_TRANSPORT);
    return why ? why : no_desk_keys(held + OWN_WORKING);
}

void desk_of(uint8_t held[LP_HELD_SIZE], const uint8_t *customer, const uint8_t *bank) {
    memcpy(held + OWN, customer, 25);
    memcpy(held + OWN_BANK, bank, 25);
    memcpy(held + OWN_TRANSPORT, customer + TRANSPORT, OWN_KEYS_SIZE);
    memcpy(held + OWN_WORKING, customer + WORKING, OWN_KEYS_SIZE);
}

static uint64_t combined(const struct parts *p) { return with_parity(p->part1 ^ p->part2); }

/* 8 and 9 of the parts. */
static uint32_t parts_refusal(const struct parts *p) {
    if (!is_odd(p->part1) || !is_odd(p->part2)) return 8;
    return encipher(combined(p), 0) >> 40 != p->check ? 9 : 0;
}

uint32_t held_open_refusal(size_t held_length, const struct parts *p) {
    uint32_t refusal = parts_refusal(p);
    if (refusal) return refusal;
    if (held_length != LP_HELD_SIZE || p->own_length != 25 || p->bank_length != 25 || p->generation > 9) return 11;
    return is_name(p->own, 17, 8) && is_name(p->bank, 17, 8) ? 0 : 11;
}

uint32_t held_enter_refusal(const uint8_t *held, size_t held_length, const struct parts *p) {
    uint32_t refusal = parts_refusal(p);
    if (refusal) return refusal;
    if (no_desk(held, held_length)) return 11;
    return p->generation == next_generation(held[OWN_TRANSPORT + GENERATION]) ? 0 : 10;
}

/* A key without one before it. */
static void put_key(uint8_t *keys, uint32_t generation, uint64_t key) {
    memset(keys, 0, OWN_KEYS_SIZE);
    keys[GENERATION] = (uint8_t)generation;
    put_number(keys + KEY, 8, key);
}

/* A new current key; the current one becomes the one before. */
static void replace_key(uint8_t *keys, uint32_t generation, uint64_t key) {
    uint8_t old = keys[GENERATION];
    uint64_t old_key = number_at(keys + KEY, 8);
    put_key(keys, generation, key);
    keys[HELD] = 1;
    keys[OLD_GENERATION] = old;
    put_number(keys + OLD_KEY, 8, old_key);
}

void held_open_by_rule(uint8_t *held, const struct parts *p) {
    memcpy(held + OWN, p->own, 25);
    memcpy(held + OWN_BANK, p->bank, 25);
    put_key(held + OWN_TRANSPORT, p->generation, combined(p));
    put_key(held + OWN_WORKING, 0, with_parity(decipher(combined(p), 0)));
}

void held_enter_by_rule(uint8_t *held, const struct parts *p) {
    replace_key(held + OWN_TRANSPORT, p->generation, combined(p));
}

void values_by_rule(uint32_t values[LP_VALUES], const uint8_t *held) {
    for (int kind = 0; kind < 2; kind++) {
        const uint8_t *keys = held + (kind ? OWN_WORKING : OWN_TRANSPORT);
        values[2 * kind] = keys[GENERATION];
        values[2 * kind + 1] = (uint32_t)(encipher(number_at(keys + KEY, 8), 0) >> 40);
    }
}

uint32_t sent_refusal(const uint8_t *first, size_t first_length, const uint8_t *closing, size_t closing_length, size_t sent_length) {
    int esi = first_length >= 161 && first_length <= 500 && !memcmp(first, ">>ESI", 5) && closing_length == first_length &&
              !memcmp(first, closing, first_length);
    int suo = first_length >= 128 && first_length <= 500 && !memcmp(first, ">>SUO", 5) && closing_length >= 161 &&
              closing_length <= 500 && !memcmp(closing, ">>VAR", 5);
    return (esi || suo) && sent_length == LP_SENT_SIZE ? 0 : 11;
}

void sent_by_rule(uint8_t *sent, const uint8_t *first, const uint8_t *closing) {
    memcpy(sent + SENT_RECEIVER, first + 35, 25);
    memcpy(sent + SENT_SENDER, first + 60, 25);
    sent[SENT_TRANSPORT] = closing[85];
    sent[SENT_WORKING] = closing[86];
    memcpy(sent + SENT_STAMP, first + 87, 15);
    sent[SENT_AREA] = first[102];
    memcpy(sent + SENT_ONCE, first + 112, 16);
    memcpy(sent + SENT_DIGEST, closing + 128, 16);
}

static int all(const uint8_t *text, size_t n, int (*test)(uint8_t)) {
    while (n--)
        if (!test(text[n])) return 0;
    return 1;
}

static int is_digit(uint8_t c) { return c >= '0' && c <= '9'; }
static int is_hex(uint8_t c) { return is_digit(c) || (c >= 'A' && c <= 'F'); }
static int is_blank(uint8_t c) { return c == ' '; }

/* 3010 of a field. */
static int has_format(int pte, const struct field *f, const uint8_t *reply, size_t n) {
    const uint8_t *text = reply + f->at;
    uint32_t number = f->number / 10;
    if (number <= 16 && !all(text, f->length, field_character)) return 0;
    switch (number) {
    case 1: return !memcmp(text, pte ? ">>PTE" : ">>ESI", 5);
    case 2: return all(text, 3, is_digit) && all(reply + layout_of(pte), n - layout_of(pte), is_blank);
    case 3: case 5: case 10: case 11: case 12: return all(text, f->length, is_digit);
    case 15: case 16: return !pte || all(text, 16, is_hex);
    case 17: return all(text, 16, is_hex);
    case 19: return reply[160] != '1' || all(text, 16, is_hex);
    default: return 1;
    }
}

/* 3011 of a field, where all have their format. */
static int has_value(int pte, const struct field *f, const uint8_t *reply) {
    const uint8_t *text = reply + f->at;
    switch (f->number) {
    case 20: return digits_at(text, 3) == layout_of(pte);
    case 30: return !memcmp(text, "110", 3) || !memcmp(text, "120", 3);
    case 40: return *text == 'K' || *text == 'E';
    case 60: return !all(text, 16, is_blank);
    case 70: return !memcmp(text, "SMH", 3);
    case 121: return real_date((uint32_t)digits_at(text, 6));
    case 122: return real_time((uint32_t)digits_at(text, 6));
    case 130: return pte ? *text == 'S' || *text == 'A' : *text == ' ';
    case 140: return all(text, 9, is_blank);
    case 150: case 160: return pte || all(text, 16, is_blank);
    case 180: return *text == '0' || *text == '1';
    case 190: return reply[160] != '0' || all(text, 16, is_blank);
    default: return 1;
    }
}

static uint32_t form(int pte, const uint8_t *reply, size_t n, uint32_t *field) {
    if (pte && !n) return 3029;
    if (n < layout_of(pte)) return 3032;
    for (int i = 0; i < FIELD_COUNT; i++)
        if (!has_format(pte, &fields[i], reply, n)) return *field = fields[i].number, 3010;
    for (int i = 0; i < FIELD_COUNT; i++)
        if (!has_value(pte, &fields[i], reply)) return *field = fields[i].number, 3011;
    return 0;
}

/* What a reply repeats of what was sent. */
static uint32_t repeated(int pte, const uint8_t *sent, const uint8_t *reply, uint32_t *field) {
    static const struct {
        uint16_t number, at, length, sent;
    } compared[] = {
        {80, 35, 25, SENT_SENDER}, {90, 60, 25, SENT_RECEIVER}, {120, 87, 15, SENT_STAMP}, {130, 102, 1, SENT_AREA}, {150, 112, 16, SENT_ONCE},
    };
    if (!pte) return memcmp(reply + 87, sent + SENT_STAMP, 15) ? 3022 : 0;
    for (size_t i = 0; i < sizeof compared / sizeof *compared; i++)
        if (memcmp(reply + compared[i].at, sent + compared[i].sent, compared[i].length)) return *field = compared[i].number, 3027;
    return memcmp(reply + 128, sent + SENT_DIGEST, 16) ? 3028 : 0;
}

/* The enclosed key in the clear; 0, which is even, where the transport key isn't held. */
static uint64_t enclosed(const uint8_t *held, const uint8_t *reply) {
    uint64_t under = key_held(held + OWN_TRANSPORT, reply[85] - '0');
    return under ? decipher(under, hex_at(reply + 161)) : 0;
}

static uint32_t finding(int pte, const uint8_t *held, const uint8_t *sent, const uint8_t *reply, size_t n, uint32_t *field) {
    uint32_t told = form(pte, reply, n, field);
    if (told) return told;
    if (memcmp(reply + 35, held + OWN, 25)) return 3021;
    if ((told = repeated(pte, sent, reply, field))) return told;
    if (reply[85] != sent[SENT_TRANSPORT]) return *field = 100, 3011;
    if (reply[86] != sent[SENT_WORKING]) return *field = 110, 3011;
    uint64_t key = key_held(held + OWN_WORKING, reply[86] - '0');
    if (!key || mac(key, reply, 144) != hex_at(reply + 144)) return 3020;
    return reply[160] == '1' && !is_odd(enclosed(held, reply)) ? 3030 : 0;
}

/* The enclosed key is the current one of the generation after the one used, which stays beside it. */
static void keep(uint8_t *held, const uint8_t *reply) {
    uint8_t *keys = held + OWN_WORKING, used = (uint8_t)(reply[86] - '0');
    uint64_t key = enclosed(held, reply);
    if (keys[GENERATION] == used) {
        replace_key(keys, next_generation(used), key);
        return;
    }
    keys[GENERATION] = (uint8_t)next_generation(used);
    put_number(keys + KEY, 8, key);
}

uint32_t check_by_rule(int pte, uint8_t *held, const uint8_t *sent, const uint8_t *reply, size_t n, uint32_t word[LP_WORDS]) {
    uint32_t field = 0, told = finding(pte, held, sent, reply, n, &field);
    word[LP_WORD_FIELD] = field;
    word[LP_WORD_LETTER] = n > 11 && (reply[11] == 'K' || reply[11] == 'E') ? reply[11] : 0;
    word[LP_WORD_CODE] = n > 15 && all(reply + 12, 4, is_digit) ? (uint32_t)digits_at(reply + 12, 4) : 0;
    if (!told && reply[160] == '1') keep(held, reply);
    return told;
}
