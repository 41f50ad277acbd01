/* The calls that build as a box sees them: every length of everything lent, null and odd pointers where a length is 0; every forged byte of
 * a batch is judged as docs/FORMAT.md says; a refused call changes nothing, a served one writes its rooms alone and moves the maker on;
 * nothing past what is lent is written. Prints what is wrong; exit status 0 where nothing is. */
#include "../rust/lentilpot/tests/appendix_3.h"
#include "lentilpot.h"
#include <stddef.h>
#include <stdio.h>
#include <string.h>

enum { GUARD = 16, MOST = 200, MAKERS = 6 };
#define SOFTWARE "KERMIT      3.01"
#define STAMP "941015073125001"
#define ODD ((uint8_t *)(uintptr_t)0x5A5A5A5A5A5A5A5B) /* points nowhere */
/* What is lent stands between guards. */
struct lent {
    uint8_t before[GUARD], bytes[MOST], after[GUARD];
};
struct maker {
    uint64_t before[GUARD], numbers[MAKERS], after[GUARD];
};
/* All that the calls are given, and the length of each. The batch is the room of a SUO, and what a record and a VAR are lent. */
struct all {
    struct lent held, software, method, stamp, text, sent, batch, record;
    struct maker maker;
};
struct lengths {
    size_t held, software, method, stamp, text, sent, batch, record, maker;
};
static struct all now;
static int wrong;
static size_t served, refused;

static void hold(int is, const char *what) {
    if (!is && wrong++ < 20) printf("box_build: %s\n", what);
}

static void put(struct lent *l, const char *text) {
    memcpy(l->bytes, text, strlen(text));
}

static const struct lengths for_esi = {LP_HELD_SIZE, 16, 3, 15, LP_ESI_SIZE, LP_SENT_SIZE, LP_BATCH_SIZE, 0, LP_MAKER_SIZE};
static const struct lengths for_suo = {LP_HELD_SIZE, 16, 3, 15, LP_SUO_SIZE, LP_SENT_SIZE, LP_BATCH_SIZE, 0, LP_MAKER_SIZE};

/* Everything as it should be, between guards. */
static void ready(void) {
    memset(&now, 0xA5, sizeof now);
    hold(lp_held_open(now.held.bytes, LP_HELD_SIZE, (const uint8_t *)OWN, 25, (const uint8_t *)BANK, 25, part1, part2, CHECK, 0) == LP_SERVED, "an opening");
    put(&now.software, SOFTWARE), put(&now.method, LP_SKH), put(&now.stamp, STAMP), put(&now.record, "PAYMENT 1   ");
    now.maker.numbers[0] = 5, now.maker.numbers[1] = 6;
}

enum call { ESI, SUO, RECORD, VAR };

static uint32_t call(enum call which, const struct lengths *n, uint32_t last) {
    switch (which) {
    case ESI:
        return lp_build_esi(now.held.bytes, n->held, now.software.bytes, n->software, now.stamp.bytes, n->stamp, last, now.text.bytes, n->text,
                            now.sent.bytes, n->sent);
    case SUO:
        return lp_build_suo(now.held.bytes, n->held, now.maker.numbers, n->maker, 7, now.software.bytes, n->software, now.method.bytes, n->method,
                            now.stamp.bytes, n->stamp, last, now.text.bytes, n->text, now.batch.bytes, n->batch);
    case RECORD: return lp_add_record(now.batch.bytes, n->batch, now.record.bytes, n->record);
    default: return lp_build_var(now.batch.bytes, n->batch, last, now.text.bytes, n->text, now.sent.bytes, n->sent);
    }
}

/* The two are the same, but for the first bytes of some. */
static int same(const struct all *a, const struct all *b, size_t text, size_t sent, size_t batch, size_t maker) {
    struct all c = *a;
    memcpy(c.text.bytes, b->text.bytes, text), memcpy(c.sent.bytes, b->sent.bytes, sent), memcpy(c.batch.bytes, b->batch.bytes, batch);
    memcpy(c.maker.numbers + 1, b->maker.numbers + 1, maker);
    return !memcmp(&c, b, sizeof c);
}

/* A call with these lengths: it writes what it should and nothing else. */
static uint32_t told(enum call which, const struct lengths *n, uint32_t last) {
    struct all was = now;
    uint32_t answer = call(which, n, last);
    if (answer) hold(same(&was, &now, 0, 0, 0, 0), "a refused call changes something"), refused++;
    else if (which == ESI || which == VAR) hold(same(&was, &now, 161, 100, 0, 0), "an ESI or VAR is written where it shouldn't"), served++;
    else if (which == SUO) {
        hold(same(&was, &now, 128, 0, 168, 8), "a SUO is written where it shouldn't"), served++;
        hold(now.maker.numbers[1] != was.maker.numbers[1], "the maker doesn't move on");
    } else hold(same(&was, &now, 0, 0, 168, 0) && !memcmp(was.batch.bytes, now.batch.bytes, 144), "a record changes more than the digest"), served++;
    return answer;
}

/* ---- lengths */

static void one_length(enum call which, const struct lengths *good, size_t offset, size_t right, size_t most, uint32_t last) {
    for (size_t i = 0; i <= most; i++) {
        struct lengths n = *good;
        struct all was = now;
        memcpy((char *)&n + offset, &i, sizeof i);
        uint32_t answer = told(which, &n, last), bad = told(which, &n, which == SUO ? 'X' : '3');
        hold(answer == (i == right ? LP_SERVED : LP_REFUSED_ARGUMENT), "a length is judged wrongly");
        if (which != RECORD) hold(bad == (i == right ? LP_REFUSED_FIELD : LP_REFUSED_ARGUMENT), "13 comes before 11");
        now = was;
    }
}
#define LENGTH_OF(which, good, what, right, most, last) one_length(which, &good, offsetof(struct lengths, what), right, most, last)

static void lengths(void) {
    ready();
    LENGTH_OF(ESI, for_esi, held, LP_HELD_SIZE, LP_HELD_SIZE + 2, '0');
    LENGTH_OF(ESI, for_esi, software, 16, 18, '0');
    LENGTH_OF(ESI, for_esi, stamp, 15, 17, '0');
    LENGTH_OF(ESI, for_esi, text, LP_ESI_SIZE, LP_ESI_SIZE + 2, '0');
    LENGTH_OF(ESI, for_esi, sent, LP_SENT_SIZE, LP_SENT_SIZE + 2, '0');
    LENGTH_OF(SUO, for_suo, held, LP_HELD_SIZE, LP_HELD_SIZE + 2, 'S');
    LENGTH_OF(SUO, for_suo, maker, LP_MAKER_SIZE, LP_MAKER_SIZE + 2, 'S');
    LENGTH_OF(SUO, for_suo, software, 16, 18, 'S');
    LENGTH_OF(SUO, for_suo, method, LP_METHOD_SIZE, LP_METHOD_SIZE + 2, 'S');
    LENGTH_OF(SUO, for_suo, stamp, LP_STAMP_SIZE, LP_STAMP_SIZE + 2, 'S');
    LENGTH_OF(SUO, for_suo, text, LP_SUO_SIZE, LP_SUO_SIZE + 2, 'S');
    LENGTH_OF(SUO, for_suo, batch, LP_BATCH_SIZE, LP_BATCH_SIZE + 2, 'S');
    hold(told(SUO, &for_suo, LP_AREA_DATA) == LP_SERVED, "a batch");
    LENGTH_OF(RECORD, for_esi, batch, LP_BATCH_SIZE, LP_BATCH_SIZE + 2, 0);
    LENGTH_OF(VAR, for_esi, batch, LP_BATCH_SIZE, LP_BATCH_SIZE + 2, '2');
    LENGTH_OF(VAR, for_esi, text, LP_VAR_SIZE, LP_VAR_SIZE + 2, '2');
    LENGTH_OF(VAR, for_esi, sent, LP_SENT_SIZE, LP_SENT_SIZE + 2, '2');
    for (size_t i = 0; i <= 40; i++) {
        struct lengths n = for_esi;
        n.record = i;
        hold(told(RECORD, &n, 0) == LP_SERVED, "a record of any length is taken");
    }
    for (uint32_t last = 0; last < 1024; last++) {
        uint32_t area = last > 255 ? LP_REFUSED_ARGUMENT : last == 'S' || last == 'A' ? LP_SERVED : LP_REFUSED_FIELD;
        uint32_t request = last > 255 ? LP_REFUSED_ARGUMENT : last >= '0' && last <= '2' ? LP_SERVED : LP_REFUSED_FIELD;
        hold(told(VAR, &for_esi, last) == request && told(ESI, &for_esi, last) == request, "a request");
        hold(told(SUO, &for_suo, last) == area, "an area");
    }
}

/* Where a length is 0 the pointer may be any. */
static void pointers(void) {
    uint8_t *any[] = {NULL, ODD, now.batch.bytes};
    for (size_t i = 0; i < 3; i++) {
        uint8_t *p = any[i];
        uint64_t *m = i == 1 ? (uint64_t *)(void *)ODD : i ? now.maker.numbers : NULL;
        ready();
        struct all was = now;
        const uint8_t *held = now.held.bytes, *name = now.software.bytes, *stamp = now.stamp.bytes;
        hold(lp_build_esi(p, 0, p, 0, p, 0, '0', p, 0, p, 0) == LP_REFUSED_ARGUMENT, "an ESI of nothing");
        hold(lp_build_esi(held, 88, p, 0, stamp, 15, '0', now.text.bytes, 161, now.sent.bytes, 100) == LP_REFUSED_ARGUMENT, "an ESI without a software");
        hold(lp_build_esi(held, 88, name, 16, stamp, 15, '0', p, 0, p, 0) == LP_REFUSED_ARGUMENT, "an ESI without rooms");
        hold(lp_build_suo(p, 0, m, 0, 7, p, 0, p, 0, p, 0, 'S', p, 0, p, 0) == LP_REFUSED_ARGUMENT, "a SUO of nothing");
        hold(lp_build_suo(held, 88, m, 0, 7, name, 16, now.method.bytes, 3, stamp, 15, 'S', now.text.bytes, 128, now.batch.bytes, 168) == LP_REFUSED_ARGUMENT,
             "a SUO without a maker");
        hold(lp_add_record(p, 0, p, 0) == LP_REFUSED_ARGUMENT, "a record in no batch");
        hold(lp_build_var(p, 0, '0', p, 0, p, 0) == LP_REFUSED_ARGUMENT, "a VAR of nothing");
        hold(same(&was, &now, 0, 0, 0, 0), "a refused call changes something");
        hold(told(SUO, &for_suo, 'S') == LP_SERVED, "a batch");
        was = now;
        hold(lp_add_record(now.batch.bytes, LP_BATCH_SIZE, p, 0) == LP_SERVED && same(&was, &now, 0, 0, 0, 0), "a record without a character changes something");
        hold(lp_build_var(now.batch.bytes, LP_BATCH_SIZE, '0', p, 0, p, 0) == LP_REFUSED_ARGUMENT, "a VAR without rooms");
    }
}

/* ---- which bytes are a batch's, by docs/FORMAT.md */

static int are(const uint8_t *text, size_t n, const char *of) {
    int is = 1;
    for (size_t i = 0; i < n; i++) is &= text[i] && strchr(of, text[i]) != NULL;
    return is;
}

static int number(const uint8_t *text, size_t n) {
    int out = 0;
    for (size_t i = 0; i < n; i++) out = 10 * out + text[i] - '0';
    return out;
}

static int is_real(const uint8_t *stamp) {
    static const int days[] = {31, 28, 31, 30, 31, 30, 31, 31, 30, 31, 30, 31};
    int year = number(stamp, 2), month = number(stamp + 2, 2), day = number(stamp + 4, 2);
    if (month < 1 || month > 12 || day < 1 || day > days[month - 1] + (month == 2 && year % 4 == 0)) return 0;
    return number(stamp + 6, 2) < 24 && number(stamp + 8, 2) < 60 && number(stamp + 10, 2) < 60;
}

static int is_odd(const uint8_t *key) {
    int is = 1;
    for (size_t i = 0; i < 8; i++) {
        int ones = 0;
        for (int bit = 0; bit < 8; bit++) ones += key[i] >> bit & 1;
        is &= ones % 2;
    }
    return is;
}

static int is_batch(const uint8_t *b) {
    static const char digits[] = "0123456789", letters[] = "ABCDEFGHIJKLMNOPQRSTUVWXYZ0123456789 %()*+,-./:;<=>";
    if (!are(b, 128, letters) || !are(b + 5, 6, digits) || !are(b + 12, 4, digits) || !are(b + 85, 17, digits)) return 0;
    if (!are(b + 112, 16, "0123456789ABCDEF")) return 0;
    int is_known = !memcmp(b + 8, "110", 3) || !memcmp(b + 8, "120", 3);
    if (is_known && memcmp(b + 5, "128", 3)) return 0;
    if (b[11] != ' ' || memcmp(b + 12, "0000", 4) || are(b + 16, 16, " ") || (memcmp(b + 32, "SKH", 3) && memcmp(b + 32, "SKE", 3))) return 0;
    if (!is_real(b + 87) || (b[102] != 'S' && b[102] != 'A') || !are(b + 103, 9, " ")) return 0;
    return is_odd(b + 128) && is_odd(b + 136);
}

/* Every byte of a batch with every value: refused exactly where these aren't a batch's bytes. */
static void forging(void) {
    size_t none = 0, some = 0;
    struct lengths n = for_esi;
    n.record = 12;
    ready();
    hold(told(SUO, &for_suo, 'S') == LP_SERVED && told(RECORD, &n, 0) == LP_SERVED, "a batch");
    struct all good = now;
    for (size_t at = 0; at < LP_BATCH_SIZE; at++)
        for (unsigned value = 0; value < 256; value++) {
            now = good, now.batch.bytes[at] = (uint8_t)value;
            uint32_t right = is_batch(now.batch.bytes) ? LP_SERVED : LP_REFUSED_ARGUMENT;
            hold(told(VAR, &for_esi, '1') == right, "a forged batch is closed otherwise than docs/FORMAT.md says");
            hold(told(RECORD, &n, 0) == right, "a record is added to a forged batch otherwise than docs/FORMAT.md says");
            *(right ? &none : &some) += 1;
        }
    hold(none > 10000 && some > 5000, "forging found too little to refuse or to serve");
    for (unsigned version = 0; version < 1000; version++) {
        now = good;
        now.batch.bytes[8] = (uint8_t)('0' + version / 100), now.batch.bytes[9] = (uint8_t)('0' + version / 10 % 10);
        now.batch.bytes[10] = (uint8_t)('0' + version % 10), now.batch.bytes[7] = '9';
        hold((told(VAR, &for_esi, '1') == LP_SERVED) == (version != 110 && version != 120), "another length under another version");
    }
}

int main(void) {
    hold(lp_batch_size() == LP_BATCH_SIZE, "the batch's size");
    hold(strlen(SOFTWARE) == 16 && strlen(STAMP) == LP_STAMP_SIZE && strlen(LP_SKE) == LP_METHOD_SIZE, "the fields' lengths");
    lengths(), pointers(), forging();
    hold(served > 10000 && refused > 10000, "too little was served or refused");
    return wrong != 0;
}
