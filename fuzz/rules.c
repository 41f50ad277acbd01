#include "rules.h"
#include "des.h"
#include "lentilpot.h"
#include <string.h>

uint64_t number_at(const uint8_t *bytes, size_t width) {
    uint64_t n = 0;
    while (width--) n = n << 8 | bytes[width];
    return n;
}

void put_number(uint8_t *bytes, size_t width, uint64_t number) {
    for (size_t i = 0; i < width; i++, number >>= 8) bytes[i] = (uint8_t)number;
}

static uint32_t days_in(uint32_t year, uint32_t month) {
    static const uint8_t days[12] = {31, 28, 31, 30, 31, 30, 31, 31, 30, 31, 30, 31};
    return month == 2 && year % 4 == 0 ? 29 : days[month - 1]; /* 1980 to 2079: every fourth year, 2000 too */
}

int real_date(uint32_t date) {
    uint32_t year = date / 10000, month = date / 100 % 100, day = date % 100;
    return year < 100 && month >= 1 && month <= 12 && day >= 1 && day <= days_in(year, month);
}

int real_time(uint32_t time) { return time / 10000 < 24 && time / 100 % 100 < 60 && time % 100 < 60; }

uint32_t in_order(uint32_t date) { return (date + 200000) % 1000000; }

uint32_t days_later(uint32_t date, uint32_t days) {
    while (days-- && date != 791231) {
        uint32_t year = date / 10000, month = date / 100 % 100, day = date % 100;
        if (++day > days_in(year, month)) day = 1, month++;
        if (month > 12) month = 1, year = (year + 1) % 100;
        date = year * 10000 + month * 100 + day;
    }
    return date;
}

uint32_t day_before(uint32_t date) {
    uint32_t year = date / 10000, month = date / 100 % 100, day = date % 100;
    if (date == 800101) return date;
    if (day > 1) return date - 1;
    if (month > 1) return year * 10000 + (month - 1) * 100 + days_in(year, month - 1);
    return (year + 99) % 100 * 10000 + 1231;
}

uint32_t next_generation(uint32_t generation) { return generation < 9 ? generation + 1 : 1; }

uint64_t hex_at(const uint8_t *text) {
    uint64_t n = 0;
    for (int i = 0; i < 16; i++) n = n << 4 | (uint64_t)(text[i] <= '9' ? text[i] - '0' : text[i] - 'A' + 10);
    return n;
}

uint64_t digits_at(const uint8_t *text, size_t n) {
    uint64_t out = 0;
    for (size_t i = 0; i < n; i++) out = out * 10 + (uint64_t)(text[i] - '0');
    return out;
}

uint64_t key_held(const uint8_t *keys, uint32_t generation) {
    if (keys[GENERATION] == generation) return number_at(keys + KEY, 8);
    return keys[HELD] && keys[OLD_GENERATION] == generation ? number_at(keys + OLD_KEY, 8) : 0;
}

int field_character(uint8_t c) {
    return (c >= 'A' && c <= 'Z') || (c >= '0' && c <= '9') || (c && strchr(" %()*+,-./:;<=>", c));
}

int is_name(const uint8_t *bytes, size_t identity, size_t qualifier) {
    int blank = 1;
    for (size_t i = 0; i < identity + qualifier; i++) {
        if (!field_character(bytes[i])) return 0;
        if (i < identity && bytes[i] != ' ') blank = 0;
    }
    return !blank;
}

uint8_t *customer_of(uint8_t *table, const uint8_t *who, size_t who_length) {
    uint8_t *c = table + number_at(table + CUSTOMER_OFFSET, 4);
    for (uint64_t n = number_at(table + CUSTOMER_COUNT, 4); n && who_length == 25; n--, c += CUSTOMER_SIZE)
        if (!memcmp(c, who, 25)) return c;
    return NULL;
}

static int all_zero(const uint8_t *bytes, size_t n) {
    for (size_t i = 0; i < n; i++)
        if (bytes[i]) return 0;
    return 1;
}

static const char *no_keys(const uint8_t *keys) {
    if (keys[GENERATION] > 9) return "a generation past 9";
    if (!is_odd(number_at(keys + KEY, 8))) return "a current key of even parity";
    if (keys[HELD] > 1) return "held is neither 0 nor 1";
    if (!keys[HELD]) return all_zero(keys + OLD_GENERATION, 17) ? NULL : "bytes of a previous key that isn't held";
    uint32_t first = (uint32_t)number_at(keys + FIRST_DAY, 4), last = (uint32_t)number_at(keys + LAST_DAY, 4);
    if (keys[OLD_GENERATION] > 9 || next_generation(keys[OLD_GENERATION]) != keys[GENERATION])
        return "the current generation doesn't follow the previous one";
    if (!is_odd(number_at(keys + OLD_KEY, 8))) return "a previous key of even parity";
    if (!real_date(first) || !real_date(last)) return "a day of the changeover isn't real";
    return in_order(last) < in_order(first) ? "a changeover that ends before it begins" : NULL;
}

static const char *no_stamps(const uint8_t *customer) {
    uint64_t n = customer[STAMP_COUNT];
    if (n > 64) return "more than 64 stamps";
    for (uint64_t i = 0; i < 64; i++) {
        uint64_t stamp = number_at(customer + STAMPS + 8 * i, 8), once = number_at(customer + ONCE_KEYS + 8 * i, 8);
        if (i >= n && (stamp || once)) return "bytes past the last stamp";
        if (i >= n) continue;
        if (stamp / 1000000000 > 999999 || !real_date((uint32_t)(stamp / 1000000000)) ||
            !real_time((uint32_t)(stamp / 1000 % 1000000)))
            return "a stamp that isn't real";
        if (once && !is_odd(once)) return "a one-time key of even parity";
    }
    return NULL;
}

static const char *no_customer(const uint8_t *customer) {
    if (!is_name(customer, 17, 8)) return "a customer's name";
    if (customer[AGREED] > 1 || customer[LEAVE] > 1) return "agreed or leave is neither 0 nor 1";
    if (customer[LENGTH] < 1 || customer[LENGTH] > 60) return "the changeover's length";
    const char *why = no_keys(customer + TRANSPORT);
    if (!why) why = no_keys(customer + WORKING);
    return why ? why : no_stamps(customer);
}

static const char *no_holidays(const uint8_t *holidays, uint64_t count) {
    for (uint64_t i = 0; i < count; i++) {
        uint32_t day = (uint32_t)number_at(holidays + 4 * i, 4);
        if (!real_date(day)) return "a holiday isn't real";
        if (i && in_order((uint32_t)number_at(holidays + 4 * i - 4, 4)) >= in_order(day)) return "holidays don't rise";
    }
    return NULL;
}

const char *no_table(const uint8_t *table, size_t length) {
    if (length != LP_TABLE_SIZE) return "another length than 49,152";
    uint64_t holidays = number_at(table + HOLIDAY_COUNT, 4), customers = number_at(table + CUSTOMER_COUNT, 4);
    if (holidays > 200 || customers > 32) return "too many holidays or customers";
    if (number_at(table + TOTAL, 4) != 82 + 4 * holidays + CUSTOMER_SIZE * customers) return "the total length";
    if (number_at(table + HOLIDAY_OFFSET, 4) != HOLIDAYS) return "the holidays' offset";
    if (number_at(table + CUSTOMER_OFFSET, 4) != HOLIDAYS + 4 * holidays) return "the customers' offset";
    if (!real_date((uint32_t)number_at(table + DAY, 4))) return "the day isn't real";
    if (!is_name(table + BANK, 17, 8) || !is_name(table + SOFTWARE, 16, 0)) return "the bank's or the software's name";
    if (table[FLOOR] != 110 && table[FLOOR] != 120) return "the floor";
    const char *why = no_holidays(table + HOLIDAYS, holidays);
    const uint8_t *c = table + HOLIDAYS + 4 * holidays;
    for (uint64_t i = 0; i < customers && !why; i++) {
        why = no_customer(c + CUSTOMER_SIZE * i);
        for (uint64_t j = 0; j < i; j++)
            if (!memcmp(c + CUSTOMER_SIZE * i, c + CUSTOMER_SIZE * j, 25)) return "a customer twice";
    }
    return why;
}

const char *no_session(const uint8_t *session, size_t length, const uint8_t *table, int is_read) {
    static const uint16_t yes_or_no[] = {OPENED, ENDED, TOLD, CR_WAITS, GATHERED_BLANK, SUO_BLANK, ONCE_HELD};
    if (length != LP_SESSION_SIZE) return "another length than 472";
    for (size_t i = 0; i < sizeof yes_or_no / sizeof *yes_or_no; i++)
        if (session[yes_or_no[i]] > 1) return "a yes or no that is neither";
    if (session[PLACE] > 6) return "no place";
    if (!session[ONCE_HELD] && !all_zero(session + ONCE, 8)) return "bytes of a one-time key that isn't held";
    if (!session[OPENED]) return "not opened";
    if (session[PLACE] == 6) return "closed";
    if (is_read && session[ENDED]) return "a read after an end";
    if (number_at(session + OPENED_DAY, 4) != number_at(table + DAY, 4)) return "another day than the table's";
    if (!real_time((uint32_t)number_at(session + OPENED_TIME, 4))) return "a time that isn't real";
    uint64_t type = number_at(session + OPENED_TYPE, 4);
    if (type < 1 || type > 16) return "a data type that isn't 1 to 16";
    if (number_at(session + GATHERED, 4) > 500) return "more than 500 characters gathered";
    return session[SUO_ALONE] > 3 ? "a one-record fault past 3" : NULL;
}

uint32_t setting_up_refusal(size_t table_length, const struct setting *s) {
    for (size_t i = 0; i < s->holiday_count; i++)
        if (!real_date(s->holidays[i])) return 4;
    if (table_length != LP_TABLE_SIZE || s->bank_length != 25 || s->software_length != 16) return 11;
    if (!is_name(s->bank, 17, 8) || !is_name(s->software, 16, 0)) return 11;
    if ((s->floor != 110 && s->floor != 120) || s->holiday_count > 200) return 11;
    for (size_t i = 1; i < s->holiday_count; i++)
        if (in_order(s->holidays[i - 1]) >= in_order(s->holidays[i])) return 11;
    return 0;
}

/* 2 and 4, which adding, entering, ordering and opening have alike. */
static uint32_t day_refusal(const uint8_t *table, int sound, uint32_t today) {
    if (!sound) return 2;
    return !real_date(today) || in_order(today) < in_order((uint32_t)number_at(table + DAY, 4)) ? 4 : 0;
}

static uint32_t key_refusal(const struct asking *a) {
    if (!is_odd(a->part1) || !is_odd(a->part2)) return 8;
    return encipher(with_parity(a->part1 ^ a->part2), 0) >> 40 != a->check ? 9 : 0;
}

uint32_t adding_refusal(uint8_t *table, int sound, const struct asking *a) {
    uint32_t refusal = day_refusal(table, sound, a->today);
    if (refusal) return refusal;
    if (number_at(table + CUSTOMER_COUNT, 4) == 32) return 5;
    if (customer_of(table, a->who, a->who_length)) return 6;
    if ((refusal = key_refusal(a))) return refusal;
    if (a->who_length != 25 || !is_name(a->who, 17, 8)) return 11;
    if (a->generation > 9 || a->types > 65535 || a->agreed > 1 || a->leave > 1 || a->length_given > 1) return 11;
    return a->length_given && (a->length < 1 || a->length > 60) ? 11 : 0;
}

static int changeover_runs(const uint8_t *keys, uint32_t today) {
    return keys[HELD] && in_order((uint32_t)number_at(keys + LAST_DAY, 4)) >= in_order(today);
}

uint32_t entering_refusal(uint8_t *table, int sound, const struct asking *a) {
    uint32_t refusal = day_refusal(table, sound, a->today);
    if (refusal) return refusal;
    const uint8_t *c = customer_of(table, a->who, a->who_length);
    if (!c) return 7;
    if ((refusal = key_refusal(a))) return refusal;
    if (a->generation != next_generation(c[TRANSPORT + GENERATION])) return 10;
    return changeover_runs(c + TRANSPORT, a->today) ? 12 : 0;
}

uint32_t ordering_refusal(uint8_t *table, int sound, const struct asking *a) {
    uint32_t refusal = day_refusal(table, sound, a->today);
    if (refusal) return refusal;
    const uint8_t *c = customer_of(table, a->who, a->who_length);
    if (!c) return 7;
    return changeover_runs(c + WORKING, a->today) ? 12 : 0;
}

uint32_t opening_refusal(const uint8_t *table, int sound, size_t session_length, const struct opening *o) {
    uint32_t refusal = day_refusal(table, sound, o->today);
    if (refusal) return refusal;
    if (!real_time(o->time)) return 4;
    return o->data_type < 1 || o->data_type > 16 || session_length != LP_SESSION_SIZE ? 11 : 0;
}

void set_up_by_rule(uint8_t *table, const struct setting *s) {
    put_number(table + TOTAL, 4, 82 + 4 * s->holiday_count);
    put_number(table + DAY, 4, 800101);
    put_number(table + HOLIDAY_COUNT, 4, s->holiday_count);
    put_number(table + HOLIDAY_OFFSET, 4, HOLIDAYS);
    put_number(table + CUSTOMER_COUNT, 4, 0);
    put_number(table + CUSTOMER_OFFSET, 4, HOLIDAYS + 4 * s->holiday_count);
    memcpy(table + BANK, s->bank, 25);
    memcpy(table + SOFTWARE, s->software, 16);
    table[FLOOR] = (uint8_t)s->floor;
    put_number(table + MAKER_K, 8, s->k);
    put_number(table + MAKER_V, 8, s->v);
    for (size_t i = 0; i < s->holiday_count; i++) put_number(table + HOLIDAYS + 4 * i, 4, s->holidays[i]);
}

void add_by_rule(uint8_t *table, const struct asking *a) {
    uint64_t n = number_at(table + CUSTOMER_COUNT, 4), total = number_at(table + TOTAL, 4);
    uint64_t key = with_parity(a->part1 ^ a->part2);
    uint8_t *c = table + total;
    put_number(table + TOTAL, 4, total + CUSTOMER_SIZE);
    put_number(table + DAY, 4, a->today);
    put_number(table + CUSTOMER_COUNT, 4, n + 1);
    memset(c, 0, CUSTOMER_SIZE);
    memcpy(c, a->who, 25);
    put_number(c + TYPES, 2, a->types);
    c[AGREED] = (uint8_t)a->agreed;
    c[LEAVE] = (uint8_t)a->leave;
    c[LENGTH] = (uint8_t)(a->length_given ? a->length : 30);
    c[TRANSPORT + GENERATION] = (uint8_t)a->generation;
    put_number(c + TRANSPORT + KEY, 8, key);
    put_number(c + WORKING + KEY, 8, with_parity(decipher(key, 0)));
}

static void change_over(uint8_t *keys, uint64_t key, uint32_t today, uint32_t length) {
    memmove(keys + OLD_GENERATION, keys + GENERATION, 9);
    keys[HELD] = 1;
    keys[GENERATION] = (uint8_t)next_generation(keys[OLD_GENERATION]);
    put_number(keys + KEY, 8, key);
    put_number(keys + FIRST_DAY, 4, today);
    put_number(keys + LAST_DAY, 4, days_later(today, length));
}

void enter_by_rule(uint8_t *table, const struct asking *a) {
    uint8_t *c = customer_of(table, a->who, a->who_length);
    put_number(table + DAY, 4, a->today);
    change_over(c + TRANSPORT, with_parity(a->part1 ^ a->part2), a->today, c[LENGTH]);
}

void order_by_rule(uint8_t *table, const struct asking *a) {
    uint8_t *c = customer_of(table, a->who, a->who_length);
    uint64_t k = number_at(table + MAKER_K, 8), v = number_at(table + MAKER_V, 8);
    uint64_t made = encipher(k, encipher(k, a->clock) ^ v);
    put_number(table + DAY, 4, a->today);
    put_number(table + MAKER_V, 8, encipher(k, v ^ made));
    change_over(c + WORKING, with_parity(made), a->today, c[LENGTH]);
}
