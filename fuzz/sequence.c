/* Whole sequences of calls from a setting up: customers, keys, several files on one table, days that move on. The messages have
 * right checksums unless they are damaged on purpose, so that files are accepted and refused for every reason. */
#include "calls.h"
#include "des.h"
#include "sending.h"
#include <string.h>

enum { FILES = 3, STEPS_MOST = 60, REPLIES_MOST = 65536 };

static struct bank aside;
static struct sending sendings[FILES], whole;

static uint64_t key_part(void) { return with_parity(UINT64_C(0x0102040810204080) * (next_byte() + 3u)); }

/* The day of a call: mostly today, sometimes later, rarely one that is refused. */
static uint32_t day(void) {
    static const uint8_t steps[] = {0, 0, 0, 0, 0, 1, 1, 2, 5, 7, 8, 28, 31, 61};
    uint32_t how = next_byte();
    if (how == 255) return (uint32_t)wide();
    if (how == 254) return day_before(today);
    return today = days_later(today, how < 128 ? 0 : steps[how % sizeof steps]);
}

static void some_holidays(uint32_t *holidays, size_t *count) {
    uint32_t d = days_later(today, pick(4)), step = 1 + pick(9);
    *count = rarely() ? 198 + pick(4) : pick(6);
    for (size_t i = 0; i < *count; i++, d = days_later(d, step)) holidays[i] = d;
    if (*count && rarely()) holidays[pick((uint32_t)*count)] = rarely() ? (uint32_t)wide() : 991231;
}

static void do_set_up(void) {
    static const uint32_t starts[] = {941013, 991229, 227, 791101, 800101, 960226, 941230};
    static const uint8_t others[] = {0, 24, 26};
    uint32_t holidays[202];
    uint8_t who[26], software[17] = "FRONT 4         ";
    struct setting s = {who, software, 25, 16, pick(2) ? 120 : 110, 1, 2, holidays, 0};
    today = starts[pick(sizeof starts / sizeof *starts)];
    memcpy(who, "003701234567             ", 26);
    some_holidays(holidays, &s.holiday_count);
    if (rarely()) s.k = wide(), s.v = wide();
    if (rarely()) who[pick(25)] = next_byte();
    if (rarely()) memset(who, ' ', 17);
    if (rarely()) software[pick(16)] = next_byte();
    if (rarely()) s.floor = next_byte();
    if (rarely()) s.bank_length = others[pick(3)];
    if (rarely()) s.software_length = pick(17);
    set_up(&bank, &s);
}

static void good_key(struct asking *a) {
    a->part1 = key_part();
    a->part2 = key_part();
    if (rarely()) a->part1 ^= 1u << pick(8);
    if (rarely()) a->part2 ^= UINT64_C(1) << pick(64);
    a->check = (uint32_t)(encipher(with_parity(a->part1 ^ a->part2), 0) >> 40);
    if (rarely()) a->check ^= 1u << pick(32);
}

static void do_add(unsigned name) {
    uint8_t who[26];
    struct asking a = {.today = day(), .who = who, .who_length = 25, .agreed = 1, .leave = 1, .types = 65535};
    name_of(who, name);
    good_key(&a);
    a.generation = pick(10);
    if (pick(8) == 7) a.types = (uint32_t)wide() & 0x1FFFF;
    if (pick(16) == 15) a.agreed = pick(3);
    if (pick(4) == 3) a.leave = pick(3);
    if (pick(2)) a.length_given = 1, a.length = 1 + pick(62);
    if (rarely()) a.length_given = next_byte();
    if (rarely()) a.generation = next_byte();
    if (rarely()) who[pick(25)] = next_byte();
    if (rarely()) a.who_length = pick(26);
    add(&bank, &a);
}

static void do_add_many(void) {
    unsigned many = pick(34);
    for (unsigned i = 0; i < many; i++) do_add(100 + i);
}

static void do_key(int transport) {
    uint8_t who[26];
    struct asking a = {.today = day(), .who = who, .who_length = 25, .clock = next_byte()};
    someone(who);
    good_key(&a);
    const uint8_t *c = bank.sound ? customer_of(bank.table, who, 25) : NULL;
    a.generation = c ? next_generation(c[TRANSPORT + GENERATION]) : 1;
    if (rarely()) a.generation = pick(12);
    if (rarely()) a.clock = wide();
    if (rarely()) a.who_length = pick(27), a.who_length -= a.who_length == 26;
    if (transport) enter(&bank, &a);
    else order(&bank, &a);
}

static void do_open(struct sending *s) {
    static const uint32_t times[] = {91500, 0, 235959, 73000};
    struct opening o = {.today = day(), .time = times[pick(4)], .data_type = 1 + pick(16), .clock = next_byte()};
    if (rarely()) o.time = (uint32_t)wide();
    if (rarely()) o.data_type = next_byte();
    if (rarely()) o.clock = ~wide();
    if (open_file(&bank, &s->file, &o)) return;
    s->opening = o;
    s->size = s->taken = 0;
}

/* A session handed back is taken again: a read of no bytes on a copy. */
static void probe(const struct sending *s) {
    struct file copy = new_file(s->file.length);
    struct answer a;
    memcpy(copy.session, s->file.session, s->file.length);
    file_changed(&copy);
    read_bytes(&bank, &copy, NULL, 0, LP_REPLY_ROOM, &a);
    if (FAULT == 35) a.finished = 1;
    if (a.refusal && !s->file.session[ENDED]) broken("the session handed back isn't accepted again", "lp_read");
    if (!a.refusal && (a.reply_length || a.finished)) broken("a read of no bytes replied or finished", "lp_read");
    free_file(&copy);
}

/* Reads so many bytes at a time (0: all there are); gives 1 while the file goes on. */
static int read_some(struct sending *s, size_t cut, struct answer *a) {
    size_t left = s->size - s->taken, n = cut && cut < left ? cut : left;
    read_bytes(&bank, &s->file, s->bytes + s->taken, n, a_room(), a);
    if (a->refusal) return a->refusal == 1; /* with room enough it may go on */
    s->taken += a->taken;
    if (!a->finished && next_byte() >= 192) probe(s);
    return !a->finished;
}

static void read_all(struct sending *s, size_t cut) {
    struct answer a;
    for (unsigned n = 0; n < 400 && s->taken < s->size; n++)
        if (!read_some(s, cut, &a)) return;
}

static void end_all(struct sending *s) {
    struct answer a;
    for (int n = 0; n < 4; n++) {
        end_file(&bank, &s->file, a_room(), &a);
        if (a.finished || a.refusal > 1) return;
    }
}

/* Receives the bytes of `from` over an opened session, keeping the replies; gives how many bytes of replies. */
static size_t received(struct bank *b, struct file *f, const struct sending *from, size_t cut, uint8_t *replies) {
    struct answer a = {0};
    size_t size = 0;
    for (size_t at = 0; at < from->size && !a.finished && size < REPLIES_MOST - LP_REPLY_ROOM; at += a.taken) {
        size_t left = from->size - at;
        read_bytes(b, f, from->bytes + at, cut && cut < left ? cut : left, LP_REPLY_ROOM, &a);
        if (a.refusal) return size;
        memcpy(replies + size, a.reply, a.reply_length);
        size += a.reply_length;
    }
    while (!a.finished && size < REPLIES_MOST - LP_REPLY_ROOM) {
        end_file(b, f, LP_REPLY_ROOM, &a);
        if (a.refusal) return size;
        memcpy(replies + size, a.reply, a.reply_length);
        size += a.reply_length;
    }
    return size;
}

/* The same file whole on a copy of the table and in cuts on the table: the same replies and the same table. */
static void do_cuts(struct sending *s) {
    static uint8_t by_whole[REPLIES_MOST], by_cuts[REPLIES_MOST];
    size_t cut = 1 + pick(200), known = accepted_so_far();
    struct opening o = s->opening;
    o.today = today;
    memcpy(aside.table, bank.table, bank.length);
    bank_changed(&aside);
    if (open_file(&aside, &whole.file, &o) || open_file(&bank, &s->file, &o)) return;
    if (cut < 8 && s->size > 600) cut = 8; /* many small reads of a long file cost more than they show */
    size_t n = received(&aside, &whole.file, s, 0, by_whole);
    forget_accepted(known); /* these were on the copy */
    size_t m = received(&bank, &s->file, s, cut, by_cuts);
    if (FAULT == 26 && m) by_cuts[m - 1] ^= 1;
    if (FAULT == 36) aside.table[LP_TABLE_SIZE - 1] ^= 1;
    if (n != m || memcmp(by_whole, by_cuts, n)) broken("the replies depend on how the file is cut", "lp_read");
    if (memcmp(aside.table, bank.table, bank.length)) broken("the table depends on how the file is cut", "lp_read");
    s->taken = s->size;
}

/* A file with an ESI and some batches, received at once. */
static void do_file(struct sending *s) {
    do_open(s);
    s->size = s->taken = 0;
    add_esi(s);
    for (uint32_t n = pick(4); n; n--) add_batch(s, 0, 0);
    while (rarely()) damage(s);
    if (pick(4) == 3) {
        do_cuts(s);
        return;
    }
    read_all(s, a_cut());
    end_all(s);
}

/* Batches with stamps of their own up to the limit of live stamps. */
static void do_crowd(struct sending *s) {
    uint32_t many = pick(72), from = pick(4) * 64;
    do_open(s);
    s->size = s->taken = 0;
    add_esi(s);
    for (uint32_t i = 0; i < many; i++) add_batch(s, 1, from + i);
    read_all(s, 0);
    end_all(s);
}

/* A legal session with other numbers in it: near the size limit, told, other keys made. */
static void do_forge(struct sending *s) {
    uint8_t *session = s->file.session;
    uint32_t how = pick(5);
    if (how == 0) put_number(session + SIZE, 4, UINT32_MAX - next_byte());
    if (how == 1) put_number(session + MADE, 8, wide());
    if (how == 2) session[TOLD] = (uint8_t)pick(2);
    if (how == 3) session[PLACE] = (uint8_t)pick(8);
    if (how == 4) session[(next_byte() << 8 | next_byte()) % s->file.length] = next_byte();
    file_changed(&s->file);
}

/* Other lengths than are asked, and a damaged copy of the table: refused, and nothing changed. */
static void do_odd_lengths(struct sending *s) {
    static const uint32_t lengths[] = {0, 1, 82, 49151, 49153};
    struct bank b = new_bank(lengths[pick(5)]);
    struct file f = new_file(474 + pick(3));
    struct opening o = {today, 91500, 1, 0};
    uint8_t who[26];
    struct asking asked = {.today = today, .who = who, .who_length = 25};
    struct setting setting = {who, who, 25, 16, 120, 1, 2, NULL, 0};
    struct answer a;
    memcpy(b.table, bank.table, b.length < bank.length ? b.length : bank.length);
    bank_changed(&b);
    name_of(who, 0);
    uint32_t how = pick(8);
    if (how == 0) set_up(&b, &setting);
    if (how == 1) add(&b, &asked);
    if (how == 2) enter(&b, &asked);
    if (how == 3) order(&b, &asked);
    if (how == 4) open_file(&b, &s->file, &o);
    if (how == 5) open_file(&bank, &f, &o);
    if (how == 6) read_bytes(&b, &s->file, NULL, 0, a_room(), &a);
    if (how == 7) read_bytes(&bank, &f, NULL, 0, a_room(), &a);
    free_bank(&b);
    free_file(&f);
}

static void do_damaged_table(struct sending *s) {
    struct answer a;
    size_t total = bank.sound ? number_at(bank.table + TOTAL, 4) : 1;
    memcpy(aside.table, bank.table, bank.length);
    aside.table[(next_byte() << 8 | next_byte()) % total] ^= (uint8_t)(1u << pick(8));
    bank_changed(&aside);
    size_t known = accepted_so_far();
    if (pick(4)) read_bytes(&aside, &s->file, s->bytes + s->taken, s->size - s->taken, LP_REPLY_ROOM, &a);
    else end_file(&aside, &s->file, LP_REPLY_ROOM, &a);
    forget_accepted(known); /* these were on the copy */
}

static void step(void) {
    uint32_t what = pick(32);
    struct sending *s = &sendings[pick(FILES)];
    struct answer a;
    if (what < 8) do_file(s);
    else if (what < 10) do_add(pick(8));
    else if (what < 12) do_key(1);
    else if (what < 14) do_key(0);
    else if (what < 16) do_open(s);
    else if (what < 18) add_esi(s);
    else if (what < 21) add_batch(s, 0, 0);
    else if (what < 22) add_raw(s);
    else if (what < 24) damage(s);
    else if (what < 26) read_some(s, next_byte(), &a);
    else if (what < 27) read_all(s, a_cut());
    else if (what < 28) end_all(s);
    else if (what < 29) do_forge(s);
    else if (what < 30) pick(2) ? do_odd_lengths(s) : do_damaged_table(s);
    else if (what < 31) do_crowd(s);
    else rarely() ? do_set_up() : do_add_many();
}

int LLVMFuzzerInitialize(int *argc, char ***argv) {
    (void)argc, (void)argv;
    prepare();
    bank = new_bank(LP_TABLE_SIZE);
    aside = new_bank(LP_TABLE_SIZE);
    whole.file = new_file(LP_SESSION_SIZE);
    for (int i = 0; i < FILES; i++) sendings[i].file = new_file(LP_SESSION_SIZE);
    return 0;
}

int LLVMFuzzerTestOneInput(const uint8_t *data, size_t size) {
    source = data;
    source_left = size;
    forget_accepted(0);
    memset(bank.table, next_byte(), bank.length);
    bank_changed(&bank);
    for (int i = 0; i < FILES; i++) {
        memset(sendings[i].file.session, 0, LP_SESSION_SIZE);
        file_changed(&sendings[i].file);
        sendings[i].size = sendings[i].taken = 0;
        sendings[i].opening = (struct opening){800101, 91500, 1, 0};
    }
    do_set_up();
    if (!bank.sound) return 0;
    for (uint32_t n = 1 + pick(3), i = 0; i < n; i++) do_add(i);
    for (unsigned n = 0; n < STEPS_MOST && source_left; n++) step();
    return 0;
}
