/* The desk's calls as a box sees them, with document 001's own replies: every wrong length and every forged byte of a desk is refused and
 * changes nothing; no reply with one byte changed in fields 1 to 17 passes; check values are those of the current keys alone; nothing past
 * what is lent is written. Prints what is wrong; exit status 0 where nothing is. 'box_desk names' prints the fields' names instead. */
#include "../rust/lentilpot/tests/appendix_3.h"
#include "lentilpot.h"
#include <stdio.h>
#include <string.h>

enum { GUARD = 16, MOST = 400 };
/* What is lent stands between guards. */
struct lent {
    uint8_t before[GUARD], bytes[MOST], after[GUARD];
};
static struct lent held, sent, reply;
static uint32_t word[GUARD + LP_WORDS + GUARD], values[GUARD + LP_VALUES + GUARD];
static const struct text {
    int is_esi;
    const char *first, *closing, *reply;
} answers[] = {{1, esi, esi, esi_reply}, {0, suo, var, pte}};
static int wrong;

static void hold(int is, const char *what) {
    if (!is && wrong++ < 20) printf("box_desk: %s\n", what);
}

static void guard(struct lent *l) {
    memset(l, 0xA5, sizeof *l);
}

/* The guards stand, and so do the bytes from there on. */
static int stands(const struct lent *l, size_t used) {
    int is = 1;
    for (size_t i = 0; i < GUARD; i++) is &= l->before[i] == 0xA5 && l->after[i] == 0xA5;
    for (size_t i = used; i < MOST; i++) is &= l->bytes[i] == 0xA5;
    return is;
}

static int word_stands(void) {
    int is = 1;
    for (size_t i = 0; i < GUARD; i++) is &= word[i] == 0xA5A5 && word[GUARD + LP_WORDS + i] == 0xA5A5;
    return is;
}

/* A check with these lengths; the guards stand, what is only read is as it was, and a refused call changes nothing. */
static uint32_t checked(int is_esi, size_t held_len, size_t sent_len, size_t reply_len, size_t word_len) {
    struct lent h = held, s = sent, r = reply;
    uint32_t w[GUARD + LP_WORDS + GUARD];
    for (size_t i = 0; i < sizeof word / sizeof *word; i++) w[i] = word[i] = 0xA5A5;
    uint32_t found = is_esi ? lp_check_esi(held.bytes, held_len, sent.bytes, sent_len, reply.bytes, reply_len, word + GUARD, word_len)
                            : lp_check_pte(held.bytes, held_len, sent.bytes, sent_len, reply.bytes, reply_len, word + GUARD, word_len);
    hold(stands(&held, LP_HELD_SIZE) && word_stands(), "a check writes past what is lent");
    hold(!memcmp(&s, &sent, sizeof s) && !memcmp(&r, &reply, sizeof r), "a check changes what it is to read");
    if (found == LP_REFUSED_ARGUMENT)
        hold(!memcmp(&h, &held, sizeof h) && !memcmp(w, word, sizeof w), "a refused check changes something");
    if (found) hold(!memcmp(&h, &held, sizeof h), "a reply that doesn't pass changes the desk");
    return found;
}

/* The check values with these lengths; the guards and the desk stand, and a refused call writes nothing. */
static uint32_t told(size_t held_len, size_t values_len) {
    struct lent h = held;
    for (size_t i = 0; i < sizeof values / sizeof *values; i++) values[i] = 0xA5A5A5A5;
    uint32_t refusal = lp_held_values(held.bytes, held_len, values + GUARD, values_len);
    hold(!memcmp(&h, &held, sizeof h), "the reading of check values changes the desk");
    hold(refusal == LP_SERVED || refusal == LP_REFUSED_ARGUMENT, "check values are refused with another number");
    for (size_t i = 0; i < sizeof values / sizeof *values; i++)
        if (refusal || i < GUARD || i >= GUARD + LP_VALUES) hold(values[i] == 0xA5A5A5A5, "check values are written past what is lent, or though refused");
    return refusal;
}

static int values_are(uint32_t transport, uint32_t transport_check, uint32_t working, uint32_t working_check) {
    const uint32_t *v = values + GUARD;
    return v[LP_VALUE_TRANSPORT_GENERATION] == transport && v[LP_VALUE_TRANSPORT_CHECK] == transport_check &&
           v[LP_VALUE_WORKING_GENERATION] == working && v[LP_VALUE_WORKING_CHECK] == working_check;
}

/* A desk, what was sent and the reply to it, between guards. */
static void ready(const struct text *t) {
    guard(&held), guard(&sent), guard(&reply);
    hold(lp_held_open(held.bytes, LP_HELD_SIZE, (const uint8_t *)OWN, 25, (const uint8_t *)BANK, 25, part1, part2, CHECK, 0) == LP_SERVED, "an opening");
    hold(lp_sent_of((const uint8_t *)t->first, strlen(t->first), (const uint8_t *)t->closing, strlen(t->closing), sent.bytes, LP_SENT_SIZE) == LP_SERVED,
         "what was sent");
    memcpy(reply.bytes, t->reply, strlen(t->reply));
    hold(stands(&held, LP_HELD_SIZE) && stands(&sent, LP_SENT_SIZE), "an opening or what was sent writes past what is lent");
}

static void lengths(const struct text *t) {
    size_t n = strlen(t->reply);
    ready(t);
    for (size_t i = 0; i < 200; i++) {
        if (i != LP_HELD_SIZE) hold(checked(t->is_esi, i, LP_SENT_SIZE, n, LP_WORDS) == LP_REFUSED_ARGUMENT, "a desk of another length is taken");
        if (i != LP_SENT_SIZE) hold(checked(t->is_esi, LP_HELD_SIZE, i, n, LP_WORDS) == LP_REFUSED_ARGUMENT, "what was sent is taken in another length");
        if (i < GUARD && i != LP_WORDS) hold(checked(t->is_esi, LP_HELD_SIZE, LP_SENT_SIZE, n, i) == LP_REFUSED_ARGUMENT, "another number of words is taken");
    }
    for (size_t i = 0; i < n; i++) {
        uint32_t found = checked(t->is_esi, LP_HELD_SIZE, LP_SENT_SIZE, i, LP_WORDS);
        hold(found == (i || t->is_esi ? LP_FINDING_REPLY_TOO_SHORT : LP_FINDING_PTE_MISSING), "a reply that is too short");
    }
    hold(checked(t->is_esi, LP_HELD_SIZE, LP_SENT_SIZE, n, LP_WORDS) == LP_PASSES, "document 001's reply doesn't pass");
    hold(word[GUARD + LP_WORD_FIELD] == 0 && word[GUARD + LP_WORD_LETTER] == 'K' && word[GUARD + LP_WORD_CODE] == 1002, "the bank's word");
}

/* The other calls with lengths and names that are none. */
static void other_lengths(void) {
    struct lent h, own;
    ready(answers), h = held;
    guard(&own), memcpy(own.bytes, OWN, 25);
    for (size_t i = 0; i < 200; i++) {
        const uint8_t *o = own.bytes, *b = (const uint8_t *)BANK;
        if (i != 25) hold(lp_held_open(held.bytes, LP_HELD_SIZE, o, i, b, 25, part1, part2, CHECK, 0) == LP_REFUSED_ARGUMENT, "a customer of another length");
        if (i != 25) hold(lp_held_open(held.bytes, LP_HELD_SIZE, b, 25, o, i, part1, part2, CHECK, 0) == LP_REFUSED_ARGUMENT, "a bank of another length");
        if (i != LP_HELD_SIZE) {
            hold(lp_held_open(held.bytes, i, o, 25, b, 25, part1, part2, CHECK, 0) == LP_REFUSED_ARGUMENT, "a desk is opened in another length");
            hold(lp_held_enter(held.bytes, i, part1, part2, CHECK, 1) == LP_REFUSED_ARGUMENT, "a key is entered in another length");
        }
        hold(lp_held_enter(held.bytes, LP_HELD_SIZE, part1, part2, CHECK, (uint32_t)i + 2) == LP_REFUSED_GENERATION, "a generation that isn't the next");
        if (i != LP_SENT_SIZE)
            hold(lp_sent_of((const uint8_t *)esi, 161, (const uint8_t *)esi, 161, sent.bytes, i) == LP_REFUSED_ARGUMENT, "what was sent, in another length");
        if (i != LP_HELD_SIZE) hold(told(i, LP_VALUES) == LP_REFUSED_ARGUMENT, "check values of a desk of another length");
        if (i < GUARD && i != LP_VALUES) hold(told(LP_HELD_SIZE, i) == LP_REFUSED_ARGUMENT, "another number of check values");
    }
    hold(!memcmp(&h, &held, sizeof h), "a refused call changes the desk");
    hold(stands(&sent, LP_SENT_SIZE), "a refused call writes what was sent");
}

/* ---- which bytes are a desk's, by docs/FORMAT.md */

static int is_name(const uint8_t *who) {
    int blank = 1, is = 1;
    for (size_t i = 0; i < LP_WHO_SIZE; i++) {
        is &= who[i] && strchr("ABCDEFGHIJKLMNOPQRSTUVWXYZ0123456789 %()*+,-./:;<=>", who[i]) != NULL;
        if (i < 17) blank &= who[i] == ' ';
    }
    return is && !blank;
}

static int is_odd(const uint8_t *key) {
    int is = 1;
    for (size_t i = 0; i < 8; i++) {
        int ones = 0;
        for (int bit = 0; bit < 8; bit++) ones += key[i] >> bit & 1;
        is &= ones % 2;
    }
    return is;
}

static int are_keys(const uint8_t *k) {
    static const uint8_t none[9];
    if (k[0] > 9 || !is_odd(k + 1) || k[9] > 1) return 0;
    if (!k[9]) return !memcmp(k + 10, none, sizeof none);
    return k[10] <= 9 && k[0] == (k[10] == 9 ? 1 : k[10] + 1) && is_odd(k + 11);
}

/* A desk with the byte at that place forged, whose check values are to be told or not. Each goes with its own current key, and with nothing else. */
static void forged_values(const uint8_t *desk, size_t at, int is) {
    int is_same = held.bytes[at] == desk[at];
    hold((told(LP_HELD_SIZE, LP_VALUES) == LP_SERVED) == is, "check values of a forged desk, or none of a desk");
    if (!is) return;
    uint32_t transport = values[GUARD + LP_VALUE_TRANSPORT_CHECK], working = values[GUARD + LP_VALUE_WORKING_CHECK];
    hold(values_are(held.bytes[50], transport, held.bytes[69], working) && transport < 0x1000000 && working < 0x1000000, "generations, or 24 bits");
    hold((transport == CHECK) == (is_same || at < 51 || at > 58), "the transport key's check value");
    hold((working == (desk[69] ? NEW_CHECK : WORKING_CHECK)) == (is_same || at < 70 || at > 77), "the working key's check value");
}

/* Every byte of a desk with every value: refused exactly where these aren't a desk's bytes. Of those that are, any answer but a refusal. */
static void forged(const uint8_t *desk) {
    size_t n = strlen(esi_reply), refused = 0;
    for (size_t at = 0; at < LP_HELD_SIZE; at++)
        for (unsigned value = 0; value < 256; value++) {
            memcpy(held.bytes, desk, LP_HELD_SIZE), held.bytes[at] = (uint8_t)value;
            const uint8_t *b = held.bytes;
            int is = is_name(b) && is_name(b + 25) && are_keys(b + 50) && are_keys(b + 69);
            uint32_t found = checked(1, LP_HELD_SIZE, LP_SENT_SIZE, n, LP_WORDS);
            hold((found == LP_REFUSED_ARGUMENT) == !is, "a forged desk is judged otherwise than docs/FORMAT.md says");
            memcpy(held.bytes, desk, LP_HELD_SIZE), held.bytes[at] = (uint8_t)value;
            forged_values(desk, at, is);
            refused += !is;
        }
    hold(refused > 10000, "forging found too little to refuse");
}

static void forging(void) {
    uint8_t first[LP_HELD_SIZE], second[LP_HELD_SIZE];
    ready(answers);
    memcpy(first, held.bytes, sizeof first);
    hold(told(LP_HELD_SIZE, LP_VALUES) == LP_SERVED && values_are(0, CHECK, 0, WORKING_CHECK), "the check values of a new desk");
    hold(checked(1, LP_HELD_SIZE, LP_SENT_SIZE, strlen(esi_reply), LP_WORDS) == LP_PASSES, "a key is kept");
    hold(lp_held_enter(held.bytes, LP_HELD_SIZE, part1, part2, CHECK, 1) == LP_SERVED, "a key is entered");
    hold(told(LP_HELD_SIZE, LP_VALUES) == LP_SERVED && values_are(1, CHECK, 1, NEW_CHECK), "the check values of the new keys");
    memcpy(second, held.bytes, sizeof second);
    hold(memcmp(first, second, sizeof first) != 0 && second[59] == 1 && second[78] == 1, "both kinds have a key before the current one");
    forged(first), forged(second);
}

/* ---- replies with one byte changed */

/* Fields 1 to 17: none passes. Field 20 on: outside the checksum, so all pass. */
static void changed(const struct text *t) {
    size_t n = strlen(t->reply), passed = 0;
    ready(t);
    for (size_t at = 0; at < n; at++)
        for (unsigned value = 0; value < 256; value++) {
            uint8_t was = reply.bytes[at];
            if (value == was || (at > LP_AT_NEW_KEY + 15 && value % 51)) continue;
            struct lent h = held;
            reply.bytes[at] = (uint8_t)value;
            uint32_t found = checked(t->is_esi, LP_HELD_SIZE, LP_SENT_SIZE, n, LP_WORDS);
            if (at < LP_AT_KEY_FLAG) hold(found >= 3010 && found <= 3032, "a reply changed in fields 1 to 17 passes");
            else if (at < LP_AT_NEW_KEY) hold(found == LP_FINDING_FIELD_VALUE, "another field 18");
            else if (at >= LP_AT_NOTICE) hold(found == LP_PASSES, "the notice is looked at"), passed++;
            held = h, reply.bytes[at] = was;
        }
    hold(passed > 100, "changing found nothing that passes");
}

/* A forged enclosed key has odd bytes once in 256: some 256 of 65,536. The desk can't tell it from the bank's. */
static void forged_keys(void) {
    uint64_t random = 1;
    unsigned passed = 0;
    ready(answers);
    for (unsigned i = 0; i < 65536; i++) {
        struct lent h = held;
        for (size_t at = 0; at < 16; at++) {
            random = random * UINT64_C(6364136223846793005) + UINT64_C(1442695040888963407);
            reply.bytes[LP_AT_NEW_KEY + at] = (uint8_t) "0123456789ABCDEF"[random >> 60];
        }
        uint32_t found = checked(1, LP_HELD_SIZE, LP_SENT_SIZE, strlen(esi_reply), LP_WORDS);
        hold(found == LP_PASSES || found == LP_FINDING_KEY_PARITY, "a forged key is told as something else");
        passed += found == LP_PASSES;
        held = h;
    }
    hold(passed > 180 && passed < 332, "forged keys pass more or less often than once in 256");
}

static void words(void) {
    static const uint32_t codes[] = {LP_PASSES, LP_REFUSED_ARGUMENT, 3010, 3011, 3020, 3021, 3022, 3027, 3028, 3029, 3030, 3032};
    for (size_t i = 0; i < sizeof codes / sizeof *codes; i++)
        for (size_t j = 0; j < i; j++) hold(strcmp(lp_finding_words(codes[i]), lp_finding_words(codes[j])) != 0, "two findings have the same words");
    hold(!strcmp(lp_finding_words(3023), lp_refusal_words(3023)), "a number that is no finding");
    hold(!strcmp(lp_finding_words(LP_REFUSED_ARGUMENT), lp_refusal_words(LP_REFUSED_ARGUMENT)), "a refusal's words");
    hold(lp_held_size() == LP_HELD_SIZE && lp_sent_size() == LP_SENT_SIZE, "the sizes");
}

int main(int argc, char **argv) {
    if (argc == 2 && !strcmp(argv[1], "names")) {
        for (uint32_t n = 0; n < 300; n++)
            if (*lp_field_name(n)) printf("%u %s\n", (unsigned)n, lp_field_name(n));
        return 0;
    }
    words(), other_lengths(), forging(), forged_keys();
    for (size_t i = 0; i < 2; i++) lengths(&answers[i]), changed(&answers[i]);
    return wrong != 0;
}
