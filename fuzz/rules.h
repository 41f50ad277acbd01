/* The rules that the calls are held against, written from the header and docs/FORMAT.md apart from the proved code. */
#ifndef FUZZ_RULES_H
#define FUZZ_RULES_H

#include <stddef.h>
#include <stdint.h>

/* Where things stand in a table, in a customer, in the keys of one kind and in a session. */
enum {
    TOTAL = 0,
    DAY = 4,
    HOLIDAY_COUNT = 8,
    HOLIDAY_OFFSET = 12,
    CUSTOMER_COUNT = 16,
    CUSTOMER_OFFSET = 20,
    BANK = 24,
    SOFTWARE = 49,
    FLOOR = 65,
    MAKER_K = 66,
    MAKER_V = 74,
    HOLIDAYS = 82
};
enum {
    TYPES = 25,
    AGREED = 27,
    LEAVE = 28,
    LENGTH = 29,
    TRANSPORT = 30,
    WORKING = 57,
    STAMP_COUNT = 84,
    STAMPS = 85,
    ONCE_KEYS = 597,
    CUSTOMER_SIZE = 1109
};
enum { GENERATION = 0, KEY = 1, HELD = 9, OLD_GENERATION = 10, OLD_KEY = 11, FIRST_DAY = 19, LAST_DAY = 23, KEYS_SIZE = 27 };
enum {
    OPENED = 0,
    ENDED = 1,
    TOLD = 2,
    PLACE = 3,
    OPENED_DAY = 4,
    OPENED_TIME = 8,
    OPENED_TYPE = 12,
    OPENED_CLOCK = 16,
    MADE = 24,
    SENDER = 32,
    SIZE = 57,
    CR_WAITS = 61,
    GATHERED = 62,
    GATHERED_BLANK = 66,
    GATHERED_TEXT = 67,
    SUO_ALONE = 228,
    SUO_BLANK = 229,
    SUO_TEXT = 230,
    ONCE_HELD = 391,
    ONCE = 392,
    DIGEST = 400
};

struct setting {
    const uint8_t *bank, *software;
    size_t bank_length, software_length;
    uint32_t floor;
    uint64_t k, v;
    const uint32_t *holidays;
    size_t holiday_count;
};

/* What adding, entering and ordering are asked; each looks at its own part. */
struct asking {
    uint32_t today;
    const uint8_t *who;
    size_t who_length;
    uint64_t part1, part2, clock;
    uint32_t check, generation, types, agreed, leave, length_given, length;
};

struct opening {
    uint32_t today, time, data_type;
    uint64_t clock;
};

uint64_t number_at(const uint8_t *bytes, size_t width);
void put_number(uint8_t *bytes, size_t width, uint64_t number);

int real_date(uint32_t date);
int real_time(uint32_t time);
uint32_t in_order(uint32_t date); /* rises with the calendar */
uint32_t days_later(uint32_t date, uint32_t days);
uint32_t day_before(uint32_t date);

/* What characters write: sixteen hex digits, decimal digits. */
uint64_t hex_at(const uint8_t *text);
uint64_t digits_at(const uint8_t *text, size_t n);

uint32_t next_generation(uint32_t generation);
/* The key of a generation that is held, whatever the date; 0 where none is. */
uint64_t key_held(const uint8_t *keys, uint32_t generation);
int field_character(uint8_t c);
int is_name(const uint8_t *bytes, size_t identity, size_t qualifier);

/* The customer's record, or null. */
uint8_t *customer_of(uint8_t *table, const uint8_t *who, size_t who_length);

/* Why these bytes are no table; null where they are one. */
const char *no_table(const uint8_t *table, size_t length);
/* Why a read or an end is refused with 3; null where it isn't. */
const char *no_session(const uint8_t *session, size_t length, const uint8_t *table, int is_read);

/* The refusal that holds, or 0. `table` is the customer-bearing bytes where `sound`. */
uint32_t setting_up_refusal(size_t table_length, const struct setting *s);
uint32_t adding_refusal(uint8_t *table, int sound, const struct asking *a);
uint32_t entering_refusal(uint8_t *table, int sound, const struct asking *a);
uint32_t ordering_refusal(uint8_t *table, int sound, const struct asking *a);
uint32_t opening_refusal(const uint8_t *table, int sound, size_t session_length, const struct opening *o);

/* What a served call makes of a table, byte for byte. */
void set_up_by_rule(uint8_t *table, const struct setting *s);
void add_by_rule(uint8_t *table, const struct asking *a);
void enter_by_rule(uint8_t *table, const struct asking *a);
void order_by_rule(uint8_t *table, const struct asking *a);

#endif
