#include "calls.h"
#include "des.h"
#include <inttypes.h>
#include <stdio.h>
#include <stdlib.h>
#include <string.h>

enum call { SET_UP, ADD, ENTER, ORDER, OPEN, READ, END, CALLS };
static const char *const call_names[CALLS] = {"lp_set_up", "lp_add", "lp_enter", "lp_order", "lp_open", "lp_read", "lp_end"};
/* The refusals that the header lists for each call, bit n for number n. */
static const uint32_t listed[CALLS] = {
    1 << 4 | 1 << 11,
    1 << 2 | 1 << 4 | 1 << 5 | 1 << 6 | 1 << 8 | 1 << 9 | 1 << 11,
    1 << 2 | 1 << 4 | 1 << 7 | 1 << 8 | 1 << 9 | 1 << 10 | 1 << 12,
    1 << 2 | 1 << 4 | 1 << 7 | 1 << 12,
    1 << 2 | 1 << 4 | 1 << 11,
    1 << 1 | 1 << 2 | 1 << 3,
    1 << 1 | 1 << 2 | 1 << 3,
};

static uint64_t calls[CALLS][13], replies[2][2][40], batches[2];
/* Seen by libFuzzer as coverage: which refusal a call gave, which code a reply has. The module's branches alone don't tell
 * these. */
__attribute__((section("__libfuzzer_extra_counters"))) static uint8_t shown[CALLS * 16 + 160];

/* Fields 8 and 12 of each reply with K since the setting up. */
enum { ACCEPTED_MOST = 16384 };
static uint8_t accepted[ACCEPTED_MOST][40];
static size_t accepted_count;

void broken(const char *property, const char *call) {
    fprintf(stderr, "fuzz: broken: %s (%s)\n", property, call);
    abort();
}

static void figures(void) {
    static const char *const kinds[2] = {"ESI", "PTE"};
    uint64_t all = 0, k = 0;
    for (int c = 0; c < CALLS; c++) {
        fprintf(stderr, "fuzz: %-9s served %" PRIu64, call_names[c], calls[c][0]);
        for (int r = 0; r < 13; r++) {
            all += calls[c][r];
            if (r && calls[c][r]) fprintf(stderr, ", refused %d: %" PRIu64, r, calls[c][r]);
        }
        fprintf(stderr, "\n");
    }
    for (int e = 0; e < 2; e++)
        for (int kind = 0; kind < 2; kind++) {
            fprintf(stderr, "fuzz: %s %c", kinds[kind], "KE"[e]);
            for (int code = 0; code < 40; code++)
                if (replies[e][kind][code]) fprintf(stderr, " %d: %" PRIu64, 1000 + code, replies[e][kind][code]);
            for (int code = 0; code < 40; code++) k += e ? 0 : replies[e][kind][code];
            fprintf(stderr, "\n");
        }
    fprintf(stderr, "fuzz: batches accepted SKE %" PRIu64 ", SKH %" PRIu64 "\n", batches[0], batches[1]);
    fprintf(stderr, "fuzz: %" PRIu64 " calls, %" PRIu64 " replies with K\n", all, k);
}

void prepare(void) {
    des_prepare();
    /* document 001, appendix 3 */
    uint64_t key = with_parity(UINT64_C(0xF18C57209492FEB3) ^ UINT64_C(0xC71A7502021A022F));
    if (encipher(key, 0) >> 40 != 0x028E4C || with_parity(decipher(key, 0)) != UINT64_C(0xAEBAE983D6406D07))
        broken("the harness's own cipher", "none");
    if (lp_session_size() != LP_SESSION_SIZE) broken("the size of a session", "lp_session_size");
    atexit(figures);
}

static uint8_t *memory(size_t n) {
    uint8_t *m = malloc(n);
    if (!m && n) abort();
    return m;
}

struct bank new_bank(size_t length) {
    struct bank b = {memory(length), memory(length), length, 0};
    memset(b.table, 0, length);
    memset(b.was, 0, length);
    return b;
}

void free_bank(struct bank *b) {
    free(b->table);
    free(b->was);
}

void bank_changed(struct bank *b) {
    memcpy(b->was, b->table, b->length);
    b->sound = !no_table(b->was, b->length);
}

struct file new_file(size_t length) {
    struct file f = {memory(length), memory(length), length};
    memset(f.session, 0, length);
    memset(f.was, 0, length);
    return f;
}

void free_file(struct file *f) {
    free(f->session);
    free(f->was);
}

void file_changed(struct file *f) { memcpy(f->was, f->session, f->length); }

void forget_accepted(size_t but) { accepted_count = but; }
size_t accepted_so_far(void) { return accepted_count; }

/* A const argument is lent as a copy of exactly its length and looked at again afterwards. */
static uint8_t *lend(const void *bytes, size_t n) {
    uint8_t *copy = memory(n);
    if (n) memcpy(copy, bytes, n);
    return copy;
}

static void take_back(uint8_t *lent, const void *bytes, size_t n, enum call c) {
    if (FAULT == 15 && n) lent[n - 1] ^= 1;
    if (n && memcmp(lent, bytes, n)) broken("a const argument changed", call_names[c]);
    free(lent);
}

/* What a refused call is spoilt with. */
static void spoil_refused(struct bank *b, struct file *f, uint32_t *refusal) {
    if (FAULT == 1 && *refusal && b->length) b->table[b->length / 2] ^= 1;
    if (FAULT == 2 && *refusal && f && f->length) f->session[f->length - 1] ^= 1;
    if (FAULT == 5 && *refusal) *refusal = 13 - *refusal;
    if (FAULT == 6 && *refusal == 2) *refusal = 0;
}

/* The refusal is the one that holds; a refused call changed nothing. */
static void check_refusal(enum call c, struct bank *b, struct file *f, uint32_t refusal, uint32_t expected) {
    if (refusal > 12 || (refusal && !(listed[c] >> refusal & 1)))
        broken("a refusal that the header doesn't list for this call", call_names[c]);
    calls[c][refusal]++;
    shown[16 * c + refusal]++;
    if (refusal != expected) {
        fprintf(stderr, "fuzz: refusal %" PRIu32 ", by the rules %" PRIu32 "\n", refusal, expected);
        broken("not the refusal that holds", call_names[c]);
    }
    if (!refusal) return;
    if (b->length && memcmp(b->table, b->was, b->length)) broken("a refused call changed the table", call_names[c]);
    if (f && f->length && memcmp(f->session, f->was, f->length)) broken("a refused call changed the session", call_names[c]);
}

/* A served call leaves a table, and the bytes past its total length as they were. */
static void check_table(enum call c, struct bank *b) {
    if (FAULT == 7) put_number(b->table + DAY, 4, 941301);
    if (FAULT == 11) b->table[LP_TABLE_SIZE - 1] ^= 1;
    int same = !memcmp(b->table, b->was, b->length);
    const char *why = same && b->sound ? NULL : no_table(b->table, b->length);
    if (why) {
        fprintf(stderr, "fuzz: %s\n", why);
        broken("a served call left no table", call_names[c]);
    }
    uint64_t total = number_at(b->table + TOTAL, 4);
    if (memcmp(b->table + total, b->was + total, b->length - total))
        broken("bytes past the table's total length changed", call_names[c]);
    b->sound = 1;
}

/* `was` now holds what the rules make of the table; the call's own work has to be the same. */
static void check_made(enum call c, struct bank *b) {
    if (FAULT == 20) b->table[MAKER_K] ^= 1;
    if (memcmp(b->table, b->was, b->length)) broken("a served call left another table than the rules give", call_names[c]);
}

uint32_t set_up(struct bank *b, const struct setting *s) {
    uint8_t *bank = lend(s->bank, s->bank_length), *software = lend(s->software, s->software_length);
    uint8_t *holidays = lend(s->holidays, 4 * s->holiday_count);
    uint32_t expected = setting_up_refusal(b->length, s);
    uint32_t refusal = lp_set_up(b->table, b->length, bank, s->bank_length, software, s->software_length, s->floor, s->k, s->v,
                                 (const uint32_t *)(const void *)holidays, s->holiday_count);
    take_back(bank, s->bank, s->bank_length, SET_UP);
    take_back(software, s->software, s->software_length, SET_UP);
    take_back(holidays, s->holidays, 4 * s->holiday_count, SET_UP);
    spoil_refused(b, NULL, &refusal);
    check_refusal(SET_UP, b, NULL, refusal, expected);
    if (refusal) return refusal;
    check_table(SET_UP, b);
    set_up_by_rule(b->was, s);
    check_made(SET_UP, b);
    forget_accepted(0);
    return 0;
}

/* Adding, entering and ordering differ in the call alone. */
static uint32_t ask(enum call c, struct bank *b, const struct asking *a) {
    uint8_t *who = lend(a->who, a->who_length);
    uint32_t expected, refusal;
    if (c == ADD) {
        expected = adding_refusal(b->was, b->sound, a);
        refusal = lp_add(b->table, b->length, a->today, who, a->who_length, a->part1, a->part2, a->check, a->generation,
                         a->types, a->agreed, a->leave, a->length_given, a->length);
    } else if (c == ENTER) {
        expected = entering_refusal(b->was, b->sound, a);
        refusal = lp_enter(b->table, b->length, a->today, who, a->who_length, a->part1, a->part2, a->check, a->generation);
    } else {
        expected = ordering_refusal(b->was, b->sound, a);
        refusal = lp_order(b->table, b->length, a->today, who, a->who_length, a->clock);
    }
    take_back(who, a->who, a->who_length, c);
    spoil_refused(b, NULL, &refusal);
    check_refusal(c, b, NULL, refusal, expected);
    if (refusal) return refusal;
    check_table(c, b);
    (c == ADD ? add_by_rule : c == ENTER ? enter_by_rule : order_by_rule)(b->was, a);
    check_made(c, b);
    return 0;
}

uint32_t add(struct bank *b, const struct asking *a) { return ask(ADD, b, a); }
uint32_t enter(struct bank *b, const struct asking *a) { return ask(ENTER, b, a); }
uint32_t order(struct bank *b, const struct asking *a) { return ask(ORDER, b, a); }

uint32_t open_file(struct bank *b, struct file *f, const struct opening *o) {
    uint32_t expected = opening_refusal(b->was, b->sound, f->length, o);
    uint32_t refusal = lp_open(b->table, b->length, f->session, f->length, o->today, o->time, o->data_type, o->clock);
    spoil_refused(b, f, &refusal);
    check_refusal(OPEN, b, f, refusal, expected);
    if (refusal) return refusal;
    check_table(OPEN, b);
    put_number(b->was + DAY, 4, o->today);
    check_made(OPEN, b);
    if (FAULT == 33) f->session[OPENED_CLOCK] ^= 1;
    const char *why = no_session(f->session, f->length, b->table, 1);
    if (why || f->session[PLACE] || number_at(f->session + OPENED_TIME, 4) != o->time ||
        number_at(f->session + OPENED_TYPE, 4) != o->data_type || number_at(f->session + OPENED_CLOCK, 8) != o->clock)
        broken("an opening left another session than it was asked", "lp_open");
    file_changed(f);
    return 0;
}

/* Kind, length and K or E agree; gives the code. */
static uint32_t check_form(enum call c, const struct answer *a) {
    const uint8_t *r = a->reply;
    int esi = a->reply_length == 237 && !memcmp(r, ">>ESI237120", 11),
        pte = a->reply_length == 317 && !memcmp(r, ">>PTE317120", 11);
    if (!esi && !pte) broken("a reply of no form", call_names[c]);
    uint64_t code = digits_at(r + 12, 4);
    int k = (code >= 1001 && code <= 1005) || code == 1036 || code == 1037;
    if (code < 1001 || code > 1037 || r[11] != (k ? 'K' : 'E')) broken("a reply's code doesn't go with K or E", call_names[c]);
    replies[!k][pte][code - 1000]++;
    shown[CALLS * 16 + (k ? 0 : 80) + (pte ? 40 : 0) + (int)code - 1000]++;
    return (uint32_t)code;
}

/* No K twice with the same fields 8 and 12. */
static void check_once(enum call c, const uint8_t *reply) {
    uint8_t fields[40];
    memcpy(fields, reply + 35, 25);
    memcpy(fields + 25, reply + 87, 15);
    for (size_t i = 0; i < accepted_count; i++)
        if (!memcmp(accepted[i], fields, 40)) broken("a stamp accepted twice", call_names[c]);
    if (accepted_count == ACCEPTED_MOST) broken("more stamps accepted than the harness keeps", call_names[c]);
    memcpy(accepted[accepted_count++], fields, 40);
}

/* A reply with K changes its sender's working keys and stamps and the seed, and nothing else; the stamp is kept; its checksum
 * and the key enclosed are right. */
static void check_accepted(enum call c, struct bank *b, const uint8_t *reply, uint32_t code) {
    uint8_t *record = customer_of(b->was, reply + 35, 25);
    if (!record) broken("a reply with K to nobody", call_names[c]);
    check_once(c, reply);
    size_t at = (size_t)(record - b->was);
    const uint8_t *now = b->table + at;
    if (FAULT == 16) b->table[at + TYPES] ^= 1;
    if (memcmp(b->table, b->was, MAKER_V) || memcmp(b->table + HOLIDAYS, b->was + HOLIDAYS, at + WORKING - HOLIDAYS) ||
        memcmp(now + CUSTOMER_SIZE, record + CUSTOMER_SIZE, b->length - at - CUSTOMER_SIZE))
        broken("a reply with K changed more than its sender's keys and stamps", call_names[c]);
    if (memcmp(b->table + MAKER_V, b->was + MAKER_V, 8) && code != 1003)
        broken("the seed moved without a new key", call_names[c]);
    if (FAULT == 17) b->table[at + STAMPS + 8 * (now[STAMP_COUNT] - 1u)] ^= 1;
    if (!now[STAMP_COUNT] || number_at(now + STAMPS + 8 * (now[STAMP_COUNT] - 1u), 8) != digits_at(reply + 87, 15))
        broken("the stamp of a reply with K isn't kept", call_names[c]);
    if (hex_at(reply + 144) != mac(key_held(record + WORKING, reply[86] - '0'), reply, 144))
        broken("the checksum of a reply with K", call_names[c]);
    if (reply[160] == '1' &&
        decipher(key_held(record + TRANSPORT, reply[85] - '0'), hex_at(reply + 161)) != number_at(now + WORKING + KEY, 8))
        broken("the key enclosed isn't the current working key", call_names[c]);
}

/* A reply with E, or none, leaves the table as it was. */
static void check_unchanged(enum call c, struct bank *b) {
    uint64_t total = number_at(b->table + TOTAL, 4), customers = number_at(b->table + CUSTOMER_OFFSET, 4);
    if (FAULT == 13 && total > customers) b->table[customers + TYPES] ^= 1;
    if (FAULT == 14) b->table[MAKER_V] ^= 1;
    if (FAULT == 21) put_number(b->table + DAY, 4, 941014);
    if (memcmp(b->table, b->was, b->length) == 0) return;
    if (memcmp(b->table + customers, b->was + customers, total - customers))
        broken("a customer's record changed without a K", call_names[c]);
    if (memcmp(b->table + MAKER_K, b->was + MAKER_K, 16)) broken("the key maker changed without a K", call_names[c]);
    broken("the table changed without a K", call_names[c]);
}

/* Where a read stops, and what an end says. */
static void check_place(enum call c, const struct answer *a, const uint8_t *input, size_t n) {
    if (c == END && !a->reply_length && !a->finished) broken("an end without a reply isn't finished", call_names[c]);
    if (c == END) return;
    if (!a->reply_length && a->finished) broken("a read finished without a reply", call_names[c]);
    if (!a->reply_length && a->taken != n) broken("a read that settles nothing left bytes", call_names[c]);
    if (a->reply_length && (!a->taken || (input[a->taken - 1] != '\n' && memcmp(a->reply + 12, "1034", 4))))
        broken("a reply doesn't come at the end of a record", call_names[c]);
}

/* A session handed back is one that the next call takes, unless the file is finished. */
static void check_session(enum call c, struct bank *b, struct file *f, const struct answer *a) {
    if (FAULT == 10 && !a->finished) put_number(f->session + GATHERED, 4, 501);
    if (FAULT == 18 && a->finished) f->session[PLACE] = 1;
    const char *why = no_session(f->session, f->length, b->table, c == READ);
    if (!why && a->finished) broken("a finished file's session is still open", call_names[c]);
    if (why && !a->finished) {
        fprintf(stderr, "fuzz: %s\n", why);
        broken("the session handed back isn't accepted again", call_names[c]);
    }
}

static void spoil_answer(struct answer *a, uint8_t *reply, size_t n, size_t room) {
    if (FAULT == 3 && a->refusal && room) reply[room - 1] ^= 1;
    if (FAULT == 4 && a->refusal) a->taken = 1;
    if (FAULT == 8 && !a->refusal) a->taken = n + 1;
    if (FAULT == 9 && a->reply_length == 317) a->reply_length = 318;
    if (FAULT == 19 && !a->refusal && a->reply_length < room) reply[a->reply_length] ^= 1;
    if (FAULT == 23 && !a->refusal && !a->reply_length && a->taken) a->taken--;
}

static void spoil_reply(struct answer *a, uint8_t *reply) {
    int k = a->reply_length && reply[11] == 'K';
    if (FAULT == 12 && k && accepted_count) memcpy(reply + 35, accepted[0], 25), memcpy(reply + 87, accepted[0] + 25, 15);
    if (FAULT == 22 && a->reply_length) reply[11] ^= 'K' ^ 'E';
    if (FAULT == 27 && k) reply[144] ^= 1;
    if (FAULT == 28 && k && reply[160] == '1') reply[161] ^= 1;
    if (FAULT == 29 && !a->reply_length) a->finished = 0;
    if (FAULT == 30 && a->reply_length && a->taken > 1) a->taken--;
    if (FAULT == 31 && !a->refusal && !a->reply_length) a->finished = 1;
    if (FAULT == 32 && a->reply_length) reply[2] ^= 1;
    if (FAULT == 34 && k && !memcmp(reply + 12, "1003", 4)) reply[15] = '1';
    if (FAULT == 37 && k) reply[35] = '?';
}

/* The answer against what was lent: taken, the reply's length, the room past it. */
static void check_answer(enum call c, struct answer *a, uint8_t *reply, size_t n, size_t room) {
    spoil_answer(a, reply, n, room);
    spoil_reply(a, reply);
    if (a->refusal && (a->taken || a->reply_length || a->finished))
        broken("a refused call took, replied or finished", call_names[c]);
    if (a->taken > n) broken("more bytes taken than handed in", call_names[c]);
    if (a->reply_length > LP_REPLY_ROOM || a->reply_length > room) broken("a reply longer than 317 bytes", call_names[c]);
    for (size_t i = a->reply_length; i < room; i++)
        if (reply[i] != 0xA5)
            broken(a->refusal ? "a refused call changed the reply's bytes" : "bytes past the reply changed", call_names[c]);
    memcpy(a->reply, reply, a->reply_length);
}

static uint32_t reading_refusal(const struct bank *b, const struct file *f, size_t room, int is_read) {
    if (room < LP_REPLY_ROOM) return 1;
    if (!b->sound) return 2;
    return no_session(f->was, f->length, b->was, is_read) ? 3 : 0;
}

static void check_served(enum call c, struct bank *b, struct file *f, const uint8_t *input, size_t n, const struct answer *a) {
    check_place(c, a, input, n);
    check_table(c, b);
    uint32_t code = a->reply_length ? check_form(c, a) : 0;
    if (code && a->reply[11] == 'K') {
        check_accepted(c, b, a->reply, code);
        if (a->reply_length == 317) batches[memcmp(f->session + SUO_TEXT + 32, "SKE", 3) != 0]++;
        memcpy(b->was, b->table, b->length);
    } else {
        check_unchanged(c, b);
    }
    check_session(c, b, f, a);
    file_changed(f);
}

static void receive(enum call c, struct bank *b, struct file *f, const uint8_t *input, size_t n, size_t room,
                    struct answer *a) {
    /* faults 24 and 25 lend less memory than is said: the address checks in the module have to see it */
    size_t memory_lent = FAULT == 24 && room >= LP_REPLY_ROOM ? 200 : room;
    size_t input_lent = FAULT == 25 && n ? n - 1 : n;
    uint8_t *reply = memory(memory_lent), *lent = lend(input, input_lent);
    memset(reply, 0xA5, memory_lent);
    uint32_t expected = reading_refusal(b, f, room, c == READ);
    uint64_t answer = c == READ ? lp_read(b->table, b->length, f->session, f->length, lent, n, reply, room)
                                : lp_end(b->table, b->length, f->session, f->length, reply, room);
    take_back(lent, input, input_lent, c);
    a->refusal = lp_refusal(answer);
    a->taken = lp_taken(answer);
    a->reply_length = lp_reply_length(answer);
    a->finished = lp_finished(answer);
    spoil_refused(b, f, &a->refusal);
    check_refusal(c, b, f, a->refusal, expected);
    check_answer(c, a, reply, n, room);
    if (!a->refusal) check_served(c, b, f, input, n, a);
    free(reply);
}

void read_bytes(struct bank *b, struct file *f, const uint8_t *input, size_t n, size_t room, struct answer *a) {
    receive(READ, b, f, input, n, room, a);
}

void end_file(struct bank *b, struct file *f, size_t room, struct answer *a) { receive(END, b, f, NULL, 0, room, a); }
