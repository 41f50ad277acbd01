/* A desk on the customer's side beside the bank: the bank's own replies, whole and damaged, on the desk that follows it and on the one
 * that its table tells of; keys opened and entered, bytes that are no desk's, what was sent with parts written over, other lengths. */
#include "des.h"
#include "desk_calls.h"
#include "messages.h"
#include "sending.h"
#include <stdio.h>
#include <string.h>

enum { TABLES = 3, STEPS_MOST = 30, REPLY_MOST = 400 };

static uint8_t tables[TABLES][LP_TABLE_SIZE];
static struct sending sending;
static struct lent held, sent;
static uint32_t serial;

/* A message as it was sent, or two, and the reply to it. */
struct exchange {
    int pte;
    uint8_t first[161], closing[161], reply[REPLY_MOST];
    size_t first_length, reply_length;
};
static struct exchange last;

/* ---- keys */

static void good_parts(struct parts *p) {
    p->part1 = with_parity(UINT64_C(0x0102040810204080) * (next_byte() + 3u));
    p->part2 = with_parity(UINT64_C(0x0811224488102244) * (next_byte() + 5u));
    if (rarely()) p->part1 ^= UINT64_C(1) << pick(64);
    if (rarely()) p->part2 ^= UINT64_C(1) << pick(64);
    p->check = (uint32_t)(encipher(with_parity(p->part1 ^ p->part2), 0) >> 40);
    if (rarely()) p->check ^= 1u << pick(32);
}

static void do_open(struct lent *l) {
    uint8_t own[26], name[26] = "003701234567             ";
    struct parts p = {.own = own, .bank = name, .own_length = 25, .bank_length = 25, .generation = pick(10)};
    name_of(own, pick(6));
    good_parts(&p);
    if (rarely()) own[pick(25)] = next_byte();
    if (rarely()) name[pick(25)] = next_byte();
    if (rarely()) memset(pick(2) ? own : name, ' ', 17);
    if (rarely()) p.own_length = pick(26);
    if (rarely()) p.bank_length = pick(26);
    if (rarely()) p.generation = (uint32_t)wide();
    held_open(l, &p);
}

static void do_enter(struct lent *l) {
    struct parts p = {0};
    good_parts(&p);
    p.generation = l->length == LP_HELD_SIZE ? next_generation(l->bytes[OWN_TRANSPORT + GENERATION] % 10) : 1;
    if (rarely()) p.generation = pick(2) ? pick(12) : (uint32_t)wide();
    held_enter(l, &p);
}

/* ---- the bank */

static uint32_t a_generation(const uint8_t *keys) {
    uint32_t how = next_byte();
    if (how >= 248) return how % 10;
    return how >= 160 && keys[HELD] ? keys[OLD_GENERATION] : keys[GENERATION];
}

/* What a message begins with: names, generations, a stamp of its own. */
static void start_message(struct message *m, const uint8_t *customer) {
    memset(m, 0, sizeof *m);
    m->receiver = bank.table + BANK;
    m->sender = customer;
    m->version = pick(8) == 7 ? 110 : 120;
    m->transport = a_generation(customer + TRANSPORT);
    m->working = a_generation(customer + WORKING);
    m->stamp = today * UINT64_C(1000000000) + UINT64_C(73000000) + serial++ % 1000;
    m->mark = ' ';
    m->request = "000111112"[pick(9)];
    m->twist_at = rarely() ? pick(161) : 255;
    m->twist = m->twist_at == 255 ? 0 : next_byte();
}

/* The bytes of a message go to the bank; gives whether the file goes on. */
static int receive(const uint8_t *text, size_t n, struct answer *a) {
    sending.size = sending.taken = 0;
    append(&sending, text, n);
    append(&sending, (const uint8_t *)"\n", 1);
    read_bytes(&bank, &sending.file, sending.bytes, sending.size, LP_REPLY_ROOM, a);
    return !a->refusal && !a->finished;
}

/* Of a reply with K: it passes on the desk with the customer's keys just before, and a key it keeps is the bank's. */
static void check_accepted(const struct exchange *e, const uint8_t *before) {
    struct lent copy = new_lent(LP_HELD_SIZE);
    memcpy(copy.bytes, before, LP_HELD_SIZE);
    lent_changed(&copy);
    uint32_t told = check_reply(e->pte, &copy, &sent, e->reply, e->reply_length, LP_WORDS);
    if (FAULT == 51) told = 3020;
    if (told) broken("a reply with K doesn't pass the desk that holds the same keys", e->pte ? "lp_check_pte" : "lp_check_esi");
    const uint8_t *c = customer_of(bank.table, before, 25);
    if (FAULT == 52 && e->reply[160] == '1') copy.bytes[OWN_WORKING + KEY] ^= 3;
    if (e->reply[160] == '1' && (!c || memcmp(copy.bytes + OWN_WORKING, c + WORKING, 9)))
        broken("the key kept isn't the bank's current one", e->pte ? "lp_check_pte" : "lp_check_esi");
    held_values(&copy, LP_VALUES);
    free_lent(&copy);
}

/* The reply to a message, on the desk of its sender as it was before. */
static void note_reply(struct exchange *e, const struct answer *a, const uint8_t *before) {
    memcpy(e->reply, a->reply, a->reply_length);
    e->reply_length = a->reply_length;
    if (sent_of(e->first, e->first_length, e->closing, 161, &sent)) return;
    if (a->reply[11] == 'K') check_accepted(e, before);
}

/* One file: an ESI, and if it is accepted perhaps a batch. The last reply is left to be checked. */
static void do_exchange(void) {
    struct opening o = {today, 91500, 1 + pick(16), next_byte()};
    struct message m;
    struct answer a;
    uint8_t before[LP_HELD_SIZE];
    uint32_t count = bank.sound ? (uint32_t)number_at(bank.table + CUSTOMER_COUNT, 4) : 0;
    if (!count || open_file(&bank, &sending.file, &o)) return;
    const uint8_t *c = bank.table + number_at(bank.table + CUSTOMER_OFFSET, 4) + CUSTOMER_SIZE * pick(count);
    desk_of(before, c, bank.table + BANK);
    start_message(&m, c);
    m.kind = "ESI", m.method = "SMH";
    last.pte = 0;
    last.first_length = write_message(last.first, &m, key_held(c + WORKING, m.working));
    memcpy(last.closing, last.first, 161);
    int goes_on = receive(last.first, 161, &a);
    if (!a.reply_length) return;
    note_reply(&last, &a, before);
    if (!goes_on || !pick(2)) return;
    desk_of(before, c, bank.table + BANK);
    start_message(&m, c);
    m.kind = "SUO", m.method = pick(2) ? "SKE" : "SKH", m.mark = "SA"[pick(2)];
    uint64_t once = with_parity(UINT64_C(0x0204060810204080) * (serial + 1u));
    m.once = encipher(key_held(c + TRANSPORT, m.transport), once);
    struct exchange batch = {.pte = 1};
    batch.first_length = write_message(batch.first, &m, 0);
    if (!receive(batch.first, batch.first_length, &a) || a.reply_length || !receive((const uint8_t *)"D", 1, &a)) return;
    m.kind = "VAR", m.method = "SMH", m.digest = digest_of((const uint8_t *)"D\n", 2, 0, once);
    if (rarely()) m.working = pick(10);
    write_message(batch.closing, &m, key_held(c + WORKING, m.working));
    receive(batch.closing, 161, &a);
    if (!a.reply_length) return;
    last = batch;
    note_reply(&last, &a, before);
}

/* ---- a reply as it comes to the desk */

static void put_hex(uint8_t *out, uint64_t n) {
    for (int i = 0; i < 16; i++) out[i] = (uint8_t) "0123456789ABCDEF"[n >> (60 - 4 * i) & 15];
}

static void seal(uint8_t *reply) {
    uint64_t key = key_held(held.bytes + OWN_WORKING, reply[86] - '0');
    put_hex(reply + 144, mac(key, reply, 144));
}

static void damage_reply(uint8_t *reply, size_t *n) {
    static const char bytes[] = "0123456789 KESAFG\n\r\xC4";
    static const uint16_t lengths[] = {0, 1, 11, 12, 15, 16, 160, 177, 236, 237, 238, 316, 317, 318, 320, 400};
    const struct field *f = &fields[pick(FIELD_COUNT)];
    uint32_t how = pick(8);
    if (how < 2) reply[(next_byte() << 8 | next_byte()) % REPLY_MOST] = next_byte();
    else if (how < 5) reply[f->at + pick(f->length)] = (uint8_t)bytes[pick(sizeof bytes - 1)];
    else if (how < 6) memset(reply + f->at, bytes[pick(sizeof bytes - 1)], f->length);
    else if (how < 7) *n = lengths[pick(sizeof lengths / sizeof *lengths)];
    else {
        uint64_t key = with_parity(wide()) ^ (rarely() ? 1 : 0);
        put_hex(reply + 161, encipher(key_held(held.bytes + OWN_TRANSPORT, reply[85] - '0'), key));
        reply[160] = '1';
    }
}

/* The last reply, damaged now and then, on the desk that follows. */
static void do_check(void) {
    uint8_t reply[REPLY_MOST];
    size_t n = last.reply_length, words = rarely() ? pick(6) : LP_WORDS;
    memset(reply, ' ', sizeof reply);
    memcpy(reply, last.reply, last.reply_length);
    if (held.length != LP_HELD_SIZE) return;
    uint32_t many = pick(4);
    for (uint32_t i = 0; i < many; i++) damage_reply(reply, &n);
    if (many && pick(4) && n >= 160) seal(reply);
    check_reply(rarely() ? !last.pte : last.pte, &held, &sent, reply, n, words);
    if (rarely()) check_reply(last.pte, &held, &sent, reply, n, words);
}

/* The desk becomes the one that the bank's table tells of. */
static void do_follow(void) {
    uint32_t count = bank.sound ? (uint32_t)number_at(bank.table + CUSTOMER_COUNT, 4) : 0;
    if (!count) return;
    const uint8_t *c = customer_of(bank.table, last.first + 60, 25);
    if (!c) c = bank.table + number_at(bank.table + CUSTOMER_OFFSET, 4);
    desk_of(held.bytes, c, bank.table + BANK);
    lent_changed(&held);
}

static void do_values(void) { held_values(&held, rarely() ? pick(8) : LP_VALUES); }

static void do_spoil(void) {
    struct lent *l = pick(2) ? &held : &sent;
    static const uint8_t near[] = {0, 1, 2, 9, 10, ' ', 'a', 0xFF};
    l->bytes[next_byte() % l->length] = pick(2) ? near[pick(sizeof near)] : next_byte();
    lent_changed(l);
}

/* Other lengths than are asked, of any bytes: refused, and nothing changed. */
static void do_odd_lengths(void) {
    static const uint8_t lengths[] = {0, 1, 87, 89, 99, 101, 88, 100};
    struct lent a = new_lent(lengths[pick(8)]), b = new_lent(lengths[pick(8)]);
    if (a.length) memcpy(a.bytes, held.bytes, a.length < held.length ? a.length : held.length), lent_changed(&a);
    uint32_t how = pick(6);
    if (how == 0) do_open(&a);
    if (how == 1) do_enter(&a);
    if (how == 5) held_values(&a, LP_VALUES);
    if (how == 2) sent_of(last.first, last.first_length, last.closing, 161, &b);
    if (how == 3) check_reply(last.pte, &a, &b, last.reply, last.reply_length, LP_WORDS);
    if (how == 4) check_reply(last.pte, &held, &b, last.reply, last.reply_length, LP_WORDS);
    free_lent(&a);
    free_lent(&b);
}

/* Messages of other lengths, or spoiled. */
static void do_sent(void) {
    static const uint16_t lengths[] = {161, 0, 4, 5, 127, 128, 160, 162, 499, 500, 501};
    static uint8_t first[512], closing[512];
    size_t n = last.first_length, m = 161;
    memset(first, 'R', sizeof first);
    memset(closing, 'R', sizeof closing);
    memcpy(first, last.first, last.first_length);
    memcpy(closing, last.closing, 161);
    if (pick(4) == 3) n = lengths[pick(11)];
    if (pick(4) == 3) m = lengths[pick(11)];
    if (pick(4) == 3) first[pick(161)] = next_byte();
    if (pick(4) == 3) closing[pick(161)] = next_byte();
    if (!last.pte && pick(2)) memcpy(closing, first, sizeof closing), m = n;
    sent_of(first, n, closing, m, &sent);
}

static void do_raw(void) {
    uint8_t reply[REPLY_MOST];
    size_t n = pick(8) == 7 ? pick(255) : layout_of(last.pte);
    for (size_t i = 0; i < n; i++) reply[i] = next_byte();
    check_reply((int)pick(2), &held, &sent, reply, n, LP_WORDS);
}

static void step(void) {
    uint32_t what = pick(32);
    if (what < 8) do_exchange();
    else if (what < 20) do_check();
    else if (what < 23) do_follow();
    else if (what < 25) do_spoil();
    else if (what < 26) do_open(&held);
    else if (what < 28) do_enter(&held);
    else if (what < 30) do_odd_lengths();
    else if (what < 31) pick(2) ? do_sent() : do_values();
    else do_raw();
}

/* ---- tables */

/* Each with keys of its own; the first one's are those of document 001, appendix 3. */
static void customer(unsigned name, uint32_t generation) {
    uint8_t who[26];
    struct asking a = {.today = 941015, .who = who, .who_length = 25, .generation = generation};
    a.part1 = UINT64_C(0xF18C57209492FEB3), a.part2 = UINT64_C(0xC71A7502021A022F) ^ name * 0x0606u;
    a.check = (uint32_t)(encipher(with_parity(a.part1 ^ a.part2), 0) >> 40);
    a.types = 65535, a.agreed = a.leave = 1;
    name_of(who, name);
    if (add(&bank, &a)) broken("a table to begin with", "lp_add");
}

/* Two fresh customers; both kinds of key in their changeover; generations 9. */
static void make_table(unsigned which) {
    const uint8_t *name = (const uint8_t *)"003701234567             ", *software = (const uint8_t *)"FRONT 4         ";
    struct setting s = {name, software, 25, 16, 110, 1, 2, NULL, 0};
    uint8_t who[26];
    struct asking a = {.today = 941015, .who = who, .who_length = 25, .clock = 7, .part1 = with_parity(0x1234), .part2 = with_parity(0x777700)};
    if (set_up(&bank, &s)) broken("a table to begin with", "lp_set_up");
    for (unsigned i = 0; i < 2; i++) customer(i, which == 2 ? 9 : 0);
    a.check = (uint32_t)(encipher(with_parity(a.part1 ^ a.part2), 0) >> 40);
    for (unsigned i = 0; i < 2 && which == 1; i++) {
        name_of(who, i);
        a.generation = 1;
        if (enter(&bank, &a) || order(&bank, &a)) broken("a table to begin with", "lp_enter or lp_order");
    }
    if (which == 2) {
        uint8_t *c = bank.table + number_at(bank.table + CUSTOMER_OFFSET, 4);
        c[WORKING + GENERATION] = c[CUSTOMER_SIZE + WORKING + GENERATION] = 9;
        bank_changed(&bank);
    }
    memcpy(tables[which], bank.table, LP_TABLE_SIZE);
}

int LLVMFuzzerInitialize(int *argc, char ***argv) {
    (void)argc, (void)argv;
    prepare();
    prepare_desk();
    bank = new_bank(LP_TABLE_SIZE);
    sending.file = new_file(LP_SESSION_SIZE);
    held = new_lent(LP_HELD_SIZE);
    sent = new_lent(LP_SENT_SIZE);
    for (unsigned i = 0; i < TABLES; i++) make_table(i);
    return 0;
}

int LLVMFuzzerTestOneInput(const uint8_t *data, size_t size) {
    source = data;
    source_left = size;
    today = 941015;
    serial = 0;
    memcpy(bank.table, tables[pick(TABLES)], LP_TABLE_SIZE);
    bank_changed(&bank);
    forget_accepted(0);
    memset(held.bytes, next_byte(), held.length);
    memset(sent.bytes, next_byte(), sent.length);
    lent_changed(&held);
    lent_changed(&sent);
    memset(&last, 0, sizeof last);
    if (pick(8) == 7) do_open(&held);
    else do_follow();
    do_exchange();
    for (unsigned n = 0; n < STEPS_MOST && source_left; n++) step();
    return 0;
}
