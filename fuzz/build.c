/* The builder on the customer's side beside the desk and the bank: messages of any fields, batches with bytes written over, other lengths;
 * every message that is built is handed to the bank; and whole files under document 02's premises, whose replies have to pass the desk. */
#include "build_calls.h"
#include "des.h"
#include "messages.h"
#include "sending.h"
#include <inttypes.h>
#include <stdio.h>
#include <stdlib.h>
#include <string.h>

enum { TABLES = 3, STEPS_MOST = 24, RECORD_MOST = 64, STAMPS_MOST = 50 };

static uint8_t tables[TABLES][LP_TABLE_SIZE];
static struct sending sending;
/* The desk in hand, an ESI's or VAR's text, a SUO's, what is to be sent, and the batch. */
static struct lent held, text, suo, sent, batch;
static struct maker maker;
static uint32_t serial;
static uint64_t accepted[2], looked_at;

static void figures(void) {
    fprintf(stderr, "fuzz: built and accepted: ESI %" PRIu64 ", batches %" PRIu64 "; built from anything and looked at by the bank %" PRIu64 "\n",
            accepted[0], accepted[1], looked_at);
}

/* ---- what is given */

static const char *const softwares[] = {"KERMIT      3.01", "%()*+,-./:;<=>09", "               Z", "                ", "kermit      3.01"};

struct fields_given {
    uint8_t software[20], method[8], stamp[20];
    struct given g;
};

/* Good fields with a stamp of its own. */
static void good_fields(struct fields_given *f, const char *of_last) {
    memcpy(f->software, softwares[pick(3)], 17);
    memcpy(f->method, pick(2) ? "SKE" : "SKH", 4);
    snprintf((char *)f->stamp, sizeof f->stamp, "%06" PRIu32 "0730%02u%03u", today, (unsigned)(serial / 1000 % 60), (unsigned)(serial % 1000));
    serial++;
    struct given g = {f->software, f->method, f->stamp, 16, 3, 15, (uint8_t)of_last[pick((uint32_t)strlen(of_last))], pick(4)};
    f->g = g;
}

/* The same with a stamp that the bank hasn't taken from this customer: one that was spoiled may have been it before. */
static void fresh_fields(struct fields_given *f, const char *of_last, const uint8_t *customer) {
    int is_held;
    do {
        good_fields(f, of_last);
        is_held = 0;
        for (size_t i = 0; i < customer[STAMP_COUNT]; i++) is_held |= number_at(customer + STAMPS + 8 * i, 8) == digits_at(f->stamp, 15);
    } while (is_held);
}

static void spoil_fields(struct fields_given *f) {
    static const uint16_t lasts[] = {'3', '/', ' ', 0, 255, 256, 256 + '0', 256 + 'S', 's'};
    if (rarely()) memcpy(f->software, softwares[pick(5)], 17);
    if (rarely()) f->software[pick(16)] = next_byte();
    if (rarely()) f->method[pick(3)] = next_byte();
    if (rarely()) f->stamp[pick(15)] = pick(2) ? '0' + (uint8_t)pick(10) : next_byte();
    if (rarely()) f->g.software_length = pick(19);
    if (rarely()) f->g.method_length = pick(6);
    if (rarely()) f->g.stamp_length = pick(18);
    if (rarely()) f->g.last = pick(2) ? lasts[pick(sizeof lasts / sizeof *lasts)] : (uint32_t)wide();
    if (rarely()) f->g.clock = wide();
}

/* ---- the bank */

static const uint8_t *someone_there(void) {
    uint32_t count = bank.sound ? (uint32_t)number_at(bank.table + CUSTOMER_COUNT, 4) : 0;
    return count ? bank.table + number_at(bank.table + CUSTOMER_OFFSET, 4) + CUSTOMER_SIZE * pick(count) : NULL;
}

/* Bytes and a line end go to the bank in cuts; the last reply is in `a`. Gives whether the file goes on. */
static int receive(const uint8_t *bytes, size_t n, struct answer *a) {
    uint8_t reply[LP_REPLY_ROOM];
    size_t length = 0, cut = pick(8) == 7 ? 1 + pick(90) : 0;
    int crlf = (int)pick(2);
    sending.size = sending.taken = 0;
    append(&sending, bytes, n);
    append(&sending, (const uint8_t *)"\r\n" + !crlf, crlf ? 2 : 1);
    do {
        size_t left = sending.size - sending.taken, now = cut && cut < left ? cut : left;
        read_bytes(&bank, &sending.file, sending.bytes + sending.taken, now, LP_REPLY_ROOM, a);
        sending.taken += a->taken;
        if (a->reply_length) memcpy(reply, a->reply, length = a->reply_length);
    } while (!a->refusal && !a->finished && sending.taken < sending.size);
    memcpy(a->reply, reply, a->reply_length = length);
    return !a->refusal && !a->finished;
}

static int begin_file(void) {
    struct opening o = {today, 91500, 1 + pick(16), next_byte()};
    return !open_file(&bank, &sending.file, &o);
}

/* A message that was built breaks no rule of format or value. */
static void check_sound(const struct answer *a, const char *call) {
    int is = a->reply_length && (!memcmp(a->reply + 12, "1010", 4) || !memcmp(a->reply + 12, "1011", 4));
    if (FAULT == 72 && a->reply_length) is = 1;
    looked_at += a->reply_length != 0;
    if (is) broken("a message that was built gets 1010 or 1011", call);
}

/* ---- whole files under the premises */

/* The reply is K, passes the desk, and leaves both sides with the same keys. */
static void check_reply_of(int pte, struct lent *own, const struct answer *a, const uint8_t *customer) {
    const char *call = pte ? "lp_check_pte" : "lp_check_esi";
    int is_k = a->reply_length && a->reply[11] == 'K';
    if (FAULT == 73) is_k = 0;
    if (!is_k) {
        fprintf(stderr, "fuzz: %.5s\n", a->reply_length ? (const char *)a->reply + 11 : "none");
        broken("what was built under the premises isn't accepted", call);
    }
    uint32_t told = check_reply(pte, own, &sent, a->reply, a->reply_length, LP_WORDS);
    if (FAULT == 74) told = 3020;
    if (told) broken("the reply to what was built doesn't pass the desk", call);
    if (FAULT == 75 && a->reply[160] == '1') own->bytes[OWN_WORKING + KEY] ^= 3;
    if (memcmp(own->bytes + OWN_WORKING, customer + WORKING, 9)) broken("both sides have other current keys after what was built", call);
    accepted[pte]++;
}

/* A record that no premise keeps out; gives its length. */
static size_t a_record(uint8_t *record) {
    static const char *const texts[] = {"D", "", "   ", "A  ", "12345678", "#", ">>PTE", ">>var", ">>VA", "PAYMENT 1          "};
    size_t n = pick(RECORD_MOST);
    if (pick(3)) {
        const char *t = texts[n % 10];
        memcpy(record, t, n = strlen(t));
    } else {
        for (size_t i = 0; i < n; i++) record[i] = next_byte();
    }
    for (size_t i = 0; i < n; i++)
        if (record[i] == '\n') record[i] = 'L';
    if (n && record[n - 1] == '\r') record[n - 1] = '.';
    if (n >= 5 && (!memcmp(record, ">>ESI", 5) || !memcmp(record, ">>SUO", 5) || !memcmp(record, ">>VAR", 5))) record[0] = '<';
    return n;
}

static void do_batch(struct lent *own, const uint8_t *customer, struct answer *a) {
    struct fields_given f;
    uint8_t record[RECORD_MOST];
    static uint8_t data[16 * (RECORD_MOST + 1)];
    size_t size = 0;
    fresh_fields(&f, "SA", customer);
    if (build_suo(own, &maker, &f.g, &suo, &batch)) broken("a good SUO is refused", "lp_build_suo");
    if (!receive(suo.bytes, LP_SUO_SIZE, a) || a->reply_length) broken("a reply to a SUO", "lp_build_suo");
    for (uint32_t left = pick(6) + 1; left; left--) {
        size_t n = left == 1 ? 1 : a_record(record);
        if (left == 1) record[0] = 'D';
        add_record(&batch, record, n);
        receive(record, n, a);
        memcpy(data + size, record, n), size += n, data[size++] = '\n';
    }
    if (build_var(&batch, (uint8_t) "012"[pick(3)], &text, &sent)) broken("a good VAR is refused", "lp_build_var");
    /* the digest over all records at once, apart from the batch's own way */
    if (hex_at(text.bytes + 128) != digest_of(data, size, suo.bytes[34] == 'H', number_at(batch.bytes + BATCH_ONCE, 8)))
        broken("the digest isn't that of the records", "lp_build_var");
    receive(text.bytes, LP_VAR_SIZE, a);
    check_reply_of(1, own, a, customer);
}

static void do_file(void) {
    struct fields_given f;
    struct answer a;
    const uint8_t *c = someone_there();
    if (!c || c[STAMP_COUNT] > STAMPS_MOST || !begin_file()) return;
    struct lent own = new_lent(LP_HELD_SIZE);
    desk_of(own.bytes, c, bank.table + BANK);
    lent_changed(&own);
    fresh_fields(&f, "012", c);
    if (build_esi(&own, &f.g, &text, &sent)) broken("a good ESI is refused", "lp_build_esi");
    receive(text.bytes, LP_ESI_SIZE, &a);
    check_reply_of(0, &own, &a, c);
    for (uint32_t left = pick(4); left; left--) do_batch(&own, c, &a);
    free_lent(&own);
}

/* ---- anything */

static void do_esi(void) {
    struct fields_given f;
    struct answer a;
    good_fields(&f, "012");
    spoil_fields(&f);
    if (build_esi(&held, &f.g, &text, &sent) || !begin_file()) return;
    receive(text.bytes, LP_ESI_SIZE, &a);
    check_sound(&a, "lp_build_esi");
}

static void do_suo(void) {
    struct fields_given f;
    good_fields(&f, "SA");
    spoil_fields(&f);
    /* never where it stood before, or it would make a key twice */
    if (rarely()) maker.numbers[pick(2)] = wide() ^ (uint64_t)serial << 40, maker_changed(&maker);
    build_suo(&held, &maker, &f.g, &suo, &batch);
}

static void do_record(void) {
    uint8_t record[RECORD_MOST];
    size_t n = pick(RECORD_MOST);
    for (size_t i = 0; i < n; i++) record[i] = next_byte();
    add_record(&batch, record, n);
}

/* The VAR of the batch in hand goes to the bank behind an accepted ESI and the last SUO. */
static void do_var(void) {
    struct fields_given f;
    struct answer a;
    uint8_t var[LP_VAR_SIZE];
    if (build_var(&batch, rarely() ? (uint32_t)wide() : (uint8_t) "0123"[pick(4)], &text, &sent)) return;
    memcpy(var, text.bytes, LP_VAR_SIZE);
    const uint8_t *c = someone_there();
    if (!c || c[STAMP_COUNT] > STAMPS_MOST || !begin_file()) return;
    struct lent own = new_lent(LP_HELD_SIZE);
    desk_of(own.bytes, c, bank.table + BANK);
    lent_changed(&own);
    good_fields(&f, "0");
    if (build_esi(&own, &f.g, &text, &sent)) broken("a good ESI is refused", "lp_build_esi");
    receive(text.bytes, LP_ESI_SIZE, &a);
    good_fields(&f, "SA");
    if (build_suo(&own, &maker, &f.g, &suo, &batch)) broken("a good SUO is refused", "lp_build_suo");
    receive(suo.bytes, LP_SUO_SIZE, &a);
    receive((const uint8_t *)"D", 1, &a);
    receive(var, LP_VAR_SIZE, &a);
    check_sound(&a, "lp_build_var");
    free_lent(&own);
}

/* The desk becomes the one that the bank's table tells of. */
static void do_follow(void) {
    const uint8_t *c = someone_there();
    if (!c) return;
    desk_of(held.bytes, c, bank.table + BANK);
    lent_changed(&held);
}

static void do_spoil(void) {
    static const uint8_t near[] = {0, 1, '0', '9', ' ', 'A', 'a', 0xFF};
    struct lent *l = pick(4) ? &batch : &held;
    uint32_t at = next_byte() % (uint32_t)l->length;
    l->bytes[at] = pick(2) ? near[pick(sizeof near)] : next_byte();
    /* a key of odd parity again, so that it is taken */
    if (l == &batch && at >= BATCH_ONCE && at < BATCH_CHAIN && pick(4)) {
        at = at < BATCH_WORKING ? BATCH_ONCE : BATCH_WORKING;
        put_number(l->bytes + at, 8, with_parity(number_at(l->bytes + at, 8)));
    }
    lent_changed(l);
}

/* Other lengths than are asked: refused, and nothing changed. */
static void do_odd_lengths(void) {
    static const uint8_t lengths[] = {0, 1, 87, 88, 89, 99, 100, 101, 127, 128, 129, 160, 161, 162, 167, 168, 169};
    struct lent a = new_lent(lengths[pick(sizeof lengths)]), b = new_lent(lengths[pick(sizeof lengths)]);
    struct maker m = new_maker(pick(5));
    struct fields_given f;
    uint32_t how = pick(8);
    struct lent *from = how == 5 || how == 6 ? &batch : &held;
    if (a.length) memcpy(a.bytes, from->bytes, a.length < from->length ? a.length : from->length), lent_changed(&a);
    good_fields(&f, how < 3 ? "012" : "SA");
    if (rarely()) f.g.last = 'X';
    if (how == 0) build_esi(&a, &f.g, &text, &sent);
    if (how == 1) build_esi(&held, &f.g, &a, &b);
    if (how == 2) build_var(&batch, f.g.last, &a, &b);
    if (how == 3) build_suo(&held, &maker, &f.g, &a, &b);
    if (how == 4) build_suo(&held, &m, &f.g, &suo, &batch);
    if (how == 5) add_record(&a, f.software, 16);
    if (how == 6) build_var(&a, '0', &text, &sent);
    if (how == 7) build_suo(&a, &maker, &f.g, &suo, &batch);
    free_lent(&a);
    free_lent(&b);
    free_maker(&m);
}

static void step(void) {
    uint32_t what = pick(32);
    if (what < 6) do_file();
    else if (what < 10) do_esi();
    else if (what < 15) do_suo();
    else if (what < 19) do_record();
    else if (what < 23) do_var();
    else if (what < 25) do_follow();
    else if (what < 29) do_spoil();
    else do_odd_lengths();
}

/* ---- tables */

/* Each with keys of its own; the first one's are those of document 001, appendix 3. */
static void customer(unsigned name, uint32_t generation) {
    uint8_t who[26];
    struct asking a = {.today = 941015, .who = who, .who_length = 25, .generation = generation};
    a.part1 = UINT64_C(0xF18C57209492FEB3), a.part2 = UINT64_C(0xC71A7502021A022F) ^ name * 0x0606u;
    a.check = (uint32_t)(encipher(with_parity(a.part1 ^ a.part2), 0) >> 40);
    a.types = 65535, a.agreed = 1, a.leave = name != 2;
    name_of(who, name);
    if (add(&bank, &a)) broken("a table to begin with", "lp_add");
}

/* Three fresh customers; both kinds of key in their changeover; generation 9. */
static void make_table(unsigned which) {
    const uint8_t *name = (const uint8_t *)"003701234567             ", *software = (const uint8_t *)"FRONT 4         ";
    struct setting s = {name, software, 25, 16, 110 + 10 * (which == 1), 1, 2, NULL, 0};
    uint8_t who[26];
    struct asking a = {.today = 941015, .who = who, .who_length = 25, .clock = 7, .part1 = with_parity(0x1234), .part2 = with_parity(0x777700)};
    if (set_up(&bank, &s)) broken("a table to begin with", "lp_set_up");
    for (unsigned i = 0; i < 3; i++) customer(i, which == 2 ? 9 : 0);
    a.check = (uint32_t)(encipher(with_parity(a.part1 ^ a.part2), 0) >> 40);
    for (unsigned i = 0; i < 3 && which == 1; i++) {
        name_of(who, i);
        a.generation = 1;
        if (enter(&bank, &a) || order(&bank, &a)) broken("a table to begin with", "lp_enter or lp_order");
    }
    memcpy(tables[which], bank.table, LP_TABLE_SIZE);
}

int LLVMFuzzerInitialize(int *argc, char ***argv) {
    (void)argc, (void)argv;
    prepare();
    prepare_desk();
    prepare_builder();
    atexit(figures);
    bank = new_bank(LP_TABLE_SIZE);
    sending.file = new_file(LP_SESSION_SIZE);
    held = new_lent(LP_HELD_SIZE);
    text = new_lent(LP_VAR_SIZE);
    suo = new_lent(LP_SUO_SIZE);
    sent = new_lent(LP_SENT_SIZE);
    batch = new_lent(LP_BATCH_SIZE);
    maker = new_maker(LP_MAKER_SIZE);
    for (unsigned i = 0; i < TABLES; i++) make_table(i);
    return 0;
}

int LLVMFuzzerTestOneInput(const uint8_t *data, size_t size) {
    struct lent *rooms[] = {&held, &text, &suo, &sent, &batch};
    source = data;
    source_left = size;
    today = 941015;
    serial = 0;
    memcpy(bank.table, tables[pick(TABLES)], LP_TABLE_SIZE);
    bank_changed(&bank);
    forget_accepted(0);
    maker.numbers[0] = UINT64_C(0x0123456789ABCDEF) + next_byte(), maker.numbers[1] = next_byte();
    maker_changed(&maker);
    for (size_t i = 0; i < 5; i++) memset(rooms[i]->bytes, next_byte(), rooms[i]->length), lent_changed(rooms[i]);
    if (pick(8) != 7) do_follow(), do_suo();
    for (unsigned n = 0; n < STEPS_MOST && source_left; n++) step();
    return 0;
}
