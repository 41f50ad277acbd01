/* lp_read and lp_end on tables and sessions of every kind: sound and damaged tables, opened sessions with parts written over,
 * random bytes as a session, random input in random cuts, little room for the reply. */
#include "des.h"
#include "sending.h"
#include <string.h>

enum { TABLES = 5, STEPS_MOST = 40 };

static uint8_t tables[TABLES][LP_TABLE_SIZE];
static struct sending sending;

/* The numbers of a session: offset and width, as docs/FORMAT.md has them. */
static const struct {
    uint16_t at, width;
} numbers[] = {
    {OPENED, 1},         {ENDED, 1},       {TOLD, 1},         {PLACE, 1},       {OPENED_DAY, 4},  {OPENED_TIME, 4},
    {OPENED_TYPE, 4},    {MADE, 8},        {OPENED_CLOCK, 8}, {SIZE, 4},        {CR_WAITS, 1},    {GATHERED, 4},
    {GATHERED_BLANK, 1}, {SUO_ALONE, 1},   {SUO_BLANK, 1},    {ONCE_HELD, 1},   {ONCE, 8},        {DIGEST, 8},
    {DIGEST + 8, 8},     {DIGEST + 16, 8}, {DIGEST + 24, 8},  {DIGEST + 32, 8}, {DIGEST + 40, 8}, {DIGEST + 48, 8},
    {DIGEST + 56, 8},    {DIGEST + 64, 8},
};

/* A number near the limits that the ranges name. */
static uint64_t a_number(void) {
    static const uint64_t near[] = {0, 1, 2, 3, 4, 5, 6, 7, 16, 17, 160, 161, 162, 235959, 240000, 941015, 941016,
                                    UINT32_MAX, UINT32_MAX - 1, UINT32_MAX - 160, UINT64_MAX};
    uint32_t how = next_byte();
    return how >= 192 ? wide() : near[how % (sizeof near / sizeof *near)];
}

/* Writes over parts of the session, most often so that it stays one. */
static void forge(struct file *f) {
    uint32_t how = pick(8);
    if (!f->length) return;
    if (how < 4 && f->length >= LP_SESSION_SIZE) {
        uint32_t which = pick(sizeof numbers / sizeof *numbers);
        put_number(f->session + numbers[which].at, numbers[which].width, a_number());
    }
    if (how == 4 && f->length >= LP_SESSION_SIZE) f->session[PLACE] = (uint8_t)pick(6);
    if (how == 5 || how == 6) { /* characters, which may be any */
        size_t at = f->length == LP_SESSION_SIZE ? (pick(2) ? GATHERED_TEXT : SUO_TEXT) + pick(161) : 0;
        for (uint32_t n = pick(16); n && at < f->length && at != SUO_ALONE && at != ONCE_HELD; n--)
            f->session[at++] = next_byte();
    }
    if (how == 7) f->session[(next_byte() << 8 | next_byte()) % f->length] = next_byte();
    file_changed(f);
}

/* Damages the table: a number of its parts or a bit anywhere; most such bytes are no table any more. */
static void damage_table(void) {
    static const uint16_t header[] = {TOTAL, DAY, HOLIDAY_COUNT, HOLIDAY_OFFSET, CUSTOMER_COUNT, CUSTOMER_OFFSET, FLOOR, HOLIDAYS};
    static const uint16_t parts[] = {0, 17, TYPES, AGREED, LEAVE, LENGTH, TRANSPORT, TRANSPORT + HELD, TRANSPORT + FIRST_DAY,
                                     WORKING, WORKING + HELD, WORKING + OLD_KEY, WORKING + LAST_DAY, STAMP_COUNT, STAMPS,
                                     STAMPS + 504, ONCE_KEYS, ONCE_KEYS + 504};
    size_t total = number_at(bank.table + TOTAL, 4), customers = number_at(bank.table + CUSTOMER_OFFSET, 4);
    size_t count = number_at(bank.table + CUSTOMER_COUNT, 4), at;
    if (!bank.sound) return;
    uint32_t how = pick(4);
    if (how == 0) at = header[pick(8)];
    else if (how == 1 && count)
        at = customers + CUSTOMER_SIZE * pick((uint32_t)count) + parts[pick(sizeof parts / sizeof *parts)];
    else at = (size_t)(next_byte() << 8 | next_byte()) % total;
    uint32_t by = pick(3);
    if (by == 0) bank.table[at] ^= (uint8_t)(1u << pick(8));
    if (by == 1) bank.table[at] = next_byte();
    if (by == 2) put_number(bank.table + at, 4, a_number());
    bank_changed(&bank);
}

static void some_bytes(struct sending *s) {
    uint32_t what = pick(8);
    if (what < 2) add_esi(s);
    else if (what < 4) add_batch(s, 0, 0);
    else if (what < 7) add_raw(s);
    else damage(s);
}

/* A read or an end; gives its refusal. */
static uint32_t call(struct sending *s, struct file *f) {
    struct answer a;
    size_t cut = a_cut(), left = s->size - s->taken;
    if (pick(8) == 7) {
        end_file(&bank, f, a_room(), &a);
        return a.refusal;
    }
    read_bytes(&bank, f, s->bytes + s->taken, cut && cut < left ? cut : left, a_room(), &a);
    if (!a.refusal) s->taken += a.taken;
    return a.refusal;
}

/* A served read or end hands back a session that the next one takes. */
static void probe(const struct file *f) {
    struct file copy = new_file(f->length);
    struct answer a;
    int open = bank.sound && !no_session(f->session, f->length, bank.table, 1);
    memcpy(copy.session, f->session, f->length);
    file_changed(&copy);
    read_bytes(&bank, &copy, NULL, 0, LP_REPLY_ROOM, &a);
    if (open && (a.refusal || a.reply_length || a.finished)) broken("a read of no bytes isn't served plainly", "lp_read");
    free_file(&copy);
}

static void customer(unsigned name, uint32_t day, uint32_t generation) {
    uint8_t who[26];
    /* document 001, appendix 3 */
    struct asking a = {.today = day, .who = who, .who_length = 25, .generation = generation};
    a.part1 = UINT64_C(0xF18C57209492FEB3), a.part2 = UINT64_C(0xC71A7502021A022F), a.check = 0x028E4C;
    a.types = 65535, a.agreed = a.leave = 1;
    name_of(who, name);
    if (add(&bank, &a)) broken("a table to begin with", "lp_add");
}

/* Both kinds of key in their changeover. */
static void change_keys(unsigned name, uint32_t day) {
    uint8_t who[26];
    struct asking a = {.today = day, .who = who, .who_length = 25, .clock = 7};
    a.part1 = with_parity(0x1234), a.part2 = with_parity(0x777700);
    name_of(who, name);
    a.check = (uint32_t)(encipher(with_parity(a.part1 ^ a.part2), 0) >> 40);
    a.generation = next_generation(customer_of(bank.table, who, 25)[TRANSPORT + GENERATION]);
    if (enter(&bank, &a) || order(&bank, &a)) broken("a table to begin with", "lp_enter or lp_order");
}

/* No customers; one; three with both changeovers; two with stamps; 32 with 200 holidays. */
static void make_table(unsigned which) {
    uint32_t holidays[200], day = 940101;
    const uint8_t *bank_name = (const uint8_t *)"003701234567             ", *software = (const uint8_t *)"FRONT 4         ";
    struct setting s = {bank_name, software, 25, 16, 110, 1, 2, holidays, 0};
    static const uint8_t counts[TABLES] = {0, 1, 3, 2, 32};
    struct opening o = {941015, 91500, 1, 0};
    if (which == 4) s.holiday_count = 200;
    if (which == 2) s.holiday_count = 1;
    for (size_t i = 0; i < s.holiday_count; i++, day = days_later(day, 3)) holidays[i] = day;
    if (set_up(&bank, &s)) broken("a table to begin with", "lp_set_up");
    for (unsigned i = 0; i < counts[which]; i++) customer(i, 941001, i % 10);
    for (unsigned i = 0; i < counts[which] && which == 2; i++) change_keys(i, 941005);
    if (open_file(&bank, &sending.file, &o)) broken("a table to begin with", "lp_open");
    today = 941015;
    if (which == 3) {
        struct answer a;
        sending.size = sending.taken = 0;
        add_esi(&sending);
        for (uint32_t i = 0; i < 63; i++) add_batch(&sending, 1, i);
        for (int i = 0; i < 64; i++) {
            read_bytes(&bank, &sending.file, sending.bytes + sending.taken, sending.size - sending.taken, LP_REPLY_ROOM, &a);
            sending.taken += a.taken;
        }
        if (sending.taken < sending.size || a.reply[11] != 'K') broken("a table to begin with", "lp_read");
    }
    memcpy(tables[which], bank.table, LP_TABLE_SIZE);
}

int LLVMFuzzerInitialize(int *argc, char ***argv) {
    (void)argc, (void)argv;
    prepare();
    bank = new_bank(LP_TABLE_SIZE);
    sending.file = new_file(LP_SESSION_SIZE);
    for (unsigned i = 0; i < TABLES; i++) make_table(i);
    return 0;
}

static void start_table(unsigned which) {
    memcpy(bank.table, tables[which], LP_TABLE_SIZE);
    bank_changed(&bank);
    forget_accepted(0);
}

/* A session out of the source's bytes, also of another length. */
static void random_session(struct file *f) {
    *f = new_file(rarely() ? next_byte() * 2u : LP_SESSION_SIZE);
    for (size_t i = 0; i < f->length; i++) f->session[i] = next_byte();
    file_changed(f);
}

static void steps(struct file *f, unsigned table, const struct opening *o) {
    for (unsigned n = 0; n < STEPS_MOST && (source_left || sending.taken < sending.size); n++) {
        size_t taken = sending.taken;
        uint32_t refusal = call(&sending, f);
        if (!source_left && sending.taken == taken) return; /* nothing left that would change that */
        if (refusal == 2 && pick(2)) start_table(table);
        if (refusal == 3 && pick(4) && f == &sending.file) open_file(&bank, f, o);
        if (rarely()) probe(f);
        if (rarely()) forge(f);
        if (rarely()) some_bytes(&sending);
        if (rarely()) damage_table();
    }
}

int LLVMFuzzerTestOneInput(const uint8_t *data, size_t size) {
    struct file other = {0}, *f = &sending.file;
    struct answer a;
    source = data;
    source_left = size;
    unsigned table = pick(TABLES);
    start_table(table);
    struct opening o = {941015, 91500, 1 + pick(16), next_byte()};
    memset(f->session, next_byte(), f->length);
    file_changed(f);
    open_file(&bank, f, &o);
    for (uint32_t n = pick(8) == 7 ? pick(4) : 0; n; n--) damage_table();
    if (rarely()) random_session(f = &other);
    sending.size = sending.taken = 0;
    for (uint32_t n = pick(4) == 3 ? pick(5) : 0; n; n--) forge(f);
    for (uint32_t n = 1 + pick(4); n; n--) some_bytes(&sending);
    steps(f, table, &o);
    for (int n = 0; n < 3; n++) {
        end_file(&bank, f, a_room(), &a);
        if (a.finished) break;
    }
    if (other.session) free_file(&other);
    return 0;
}
