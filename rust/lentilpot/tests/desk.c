/* The desk's functions of include/lentilpot.h called with known answers; what is printed has to be desk.txt. tests/desk.rs makes the same
 * calls in the same order from Rust, and says what the lines of desk_cases.txt are. usage: desk desk_cases.txt */
#include "appendix_3.h"
#include "lentilpot.h"
#include <inttypes.h>
#include <stdio.h>
#include <string.h>

static uint8_t held[LP_HELD_SIZE], sent[LP_SENT_SIZE];
/* A message or reply: its characters and how many. */
struct text {
    uint8_t bytes[512];
    size_t length;
};

/* FNV-1a, 64 bits */
static uint64_t sum(const uint8_t *bytes, size_t n) {
    uint64_t h = UINT64_C(0xCBF29CE484222325);
    for (size_t i = 0; i < n; i++) h = (h ^ bytes[i]) * UINT64_C(0x100000001B3);
    return h;
}

static struct text of(const char *characters) {
    struct text t = {{0}, strlen(characters)};
    memcpy(t.bytes, characters, t.length);
    return t;
}

/* The text over the bytes at that place, blanks between; where it is empty the bytes end there. */
static struct text damaged(struct text t, size_t at, const char *text) {
    size_t n = strlen(text);
    if (!n) t.length = at < t.length ? at : t.length;
    for (; n && t.length < at + n; t.length++) t.bytes[t.length] = ' ';
    memcpy(t.bytes + at, text, n);
    return t;
}

static struct text made(const char *characters, size_t length) {
    return damaged(of(characters), length > strlen(characters) ? length - 1 : length, length > strlen(characters) ? "~" : "");
}

static void opens(size_t lent, const char *own, size_t own_len, const char *bank, size_t bank_len, uint64_t second, uint32_t check, uint32_t generation) {
    uint32_t refusal = lp_held_open(held, lent, (const uint8_t *)own, own_len, (const uint8_t *)bank, bank_len, part1, second, check, generation);
    printf("open %" PRIu32 " held %016" PRIX64 "\n", refusal, sum(held, sizeof held));
}

static void enters(size_t lent, uint64_t second, uint32_t check, uint32_t generation) {
    uint32_t refusal = lp_held_enter(held, lent, part1, second, check, generation);
    printf("enter %" PRIu32 " held %016" PRIX64 "\n", refusal, sum(held, sizeof held));
}

/* The check values of a desk. */
static void tells(const uint8_t *desk, size_t length, size_t lent) {
    uint32_t values[LP_VALUES + 1] = {7, 7, 7, 7, 7};
    uint32_t refusal = lp_held_values(desk, length, values, lent);
    printf("values %" PRIu32 " transport %" PRIu32 " %06" PRIX32 " working %" PRIu32 " %06" PRIX32 "\n", refusal, values[LP_VALUE_TRANSPORT_GENERATION],
           values[LP_VALUE_TRANSPORT_CHECK], values[LP_VALUE_WORKING_GENERATION], values[LP_VALUE_WORKING_CHECK]);
}

static void sends(struct text first, struct text closing, size_t lent) {
    uint32_t refusal = lp_sent_of(first.bytes, first.length, closing.bytes, closing.length, sent, lent);
    printf("sent %" PRIu32 " sent %016" PRIX64 "\n", refusal, sum(sent, sizeof sent));
}

static void checks(const char *kind, size_t held_len, size_t sent_len, size_t word_len, struct text was, struct text reply) {
    uint32_t word[LP_WORDS] = {7, 7, 7};
    uint32_t found = !strcmp(kind, "esi") ? lp_check_esi(held, held_len, was.bytes, sent_len, reply.bytes, reply.length, word, word_len)
                                          : lp_check_pte(held, held_len, was.bytes, sent_len, reply.bytes, reply.length, word, word_len);
    printf("%s %" PRIu32 " field %" PRIu32 " word %" PRIu32 " %" PRIu32 " held %016" PRIX64 "\n", kind, found, word[LP_WORD_FIELD],
           word[LP_WORD_LETTER], word[LP_WORD_CODE], sum(held, sizeof held));
}

static void opened(void) {
    static const size_t other_rooms[] = {0, 1, 2, 3, 5};
    const uint32_t c = CHECK;
    opens(88, OWN, 24, BANK, 25, part2 ^ 1, c + 1, 10);
    opens(88, OWN, 24, BANK, 25, part2, c + 1, 10);
    opens(88, OWN, 25, BANK, 25, part2, c + 0x1000000, 0);
    opens(88, OWN, 24, BANK, 25, part2, c, 0);
    opens(88, OWN, 25, BANK, 24, part2, c, 0);
    opens(88, OWN, 25, BLANKS, 25, part2, c, 0);
    opens(88, OWN, 0, BANK, 25, part2, c, 0);
    opens(88, OWN, 25, BANK, 25, part2, c, 10);
    opens(87, OWN, 25, BANK, 25, part2, c, 0);
    opens(87, OWN, 25, BANK, 25, part2, c + 1, 0);
    enters(88, part2 ^ 1, c + 1, 1);
    enters(88, part2, c + 1, 1);
    enters(88, part2, c, 1);
    tells(held, 88, 4);
    opens(88, OWN, 25, BANK, 25, part2, c, 9);
    tells(held, 88, 4);
    opens(88, OWN, 25, BANK, 25, part2, c, 0);
    tells(held, 88, 4);
    tells(held, 87, 4);
    tells(held, 0, 4);
    for (size_t i = 0; i < 5; i++) tells(held, 88, other_rooms[i]);
    enters(88, part2 ^ 1, c + 1, 2);
    enters(88, part2, c + 1, 2);
    enters(88, part2, c, 2);
    enters(88, part2, c, 0);
    enters(87, part2, c, 1);
}

static void was_sent(void) {
    sends(of(esi), of(esi), 100);
    sends(made(esi, 160), made(esi, 160), 100);
    sends(of(esi), damaged(of(esi), 160, "1"), 100);
    sends(of(esi), of(var), 100);
    sends(of(esi), of(esi), 99);
    sends(made(esi, 500), made(esi, 500), 100);
    sends(made(esi, 501), made(esi, 501), 100);
    sends(of(suo), of(var), 100);
    sends(of(var), of(suo), 100);
    sends(of(suo), of(suo), 100);
    sends(made(suo, 127), of(var), 100);
    sends(of(suo), made(var, 160), 100);
    sends(made(suo, 500), made(var, 500), 100);
    sends(made(suo, 501), of(var), 100);
    sends(of(suo), made(var, 501), 100);
    sends(of(""), of(""), 100);
    sends(of(suo), of(var), 0);
}

/* What was sent, an ESI or a batch. */
static struct text sent_of(const char *first, const char *closing) {
    struct text t = {{0}, LP_SENT_SIZE};
    if (lp_sent_of((const uint8_t *)first, strlen(first), (const uint8_t *)closing, strlen(closing), t.bytes, t.length)) puts("no message");
    return t;
}

/* The lines of desk_cases.txt, each on the desk as it was opened. */
static int cases(FILE *f) {
    uint8_t before[LP_HELD_SIZE];
    char line[128], kind[8], forged[128] = "";
    size_t at, forged_at = 0, count = 0;
    memcpy(before, held, sizeof held);
    for (; f && fgets(line, sizeof line, f); count++) {
        char *text = strchr(line, '|') + 1;
        *strrchr(text, '|') = 0;
        if (sscanf(line, "%7s %zu", kind, &at) != 2) return 2;
        if (!strcmp(kind, "sent")) {
            strcpy(forged, text), forged_at = at;
            continue;
        }
        if (!strcmp(kind, "values")) {
            struct text desk = {{0}, LP_HELD_SIZE};
            memcpy(desk.bytes, held, sizeof held), desk = damaged(desk, at, text);
            tells(desk.bytes, desk.length, 4);
            continue;
        }
        int is_esi = !strcmp(kind, "esi");
        struct text was = is_esi ? sent_of(esi, esi) : sent_of(suo, var);
        if (*forged) was = damaged(was, forged_at, forged);
        checks(kind, 88, 100, 3, was, damaged(of(is_esi ? esi_reply : pte), at, text));
        memcpy(held, before, sizeof held), *forged = 0;
    }
    return count ? 0 : 2;
}

/* A key that is kept, lengths that are refused, and further transport keys. */
static void kept(void) {
    static const size_t lent[][3] = {{87, 100, 3}, {88, 99, 3}, {88, 100, 2}, {0, 0, 0}};
    struct text of_esi = sent_of(esi, esi), of_batch = sent_of(suo, var);
    for (size_t i = 0; i < 4; i++) {
        checks("esi", lent[i][0], lent[i][1], lent[i][2], of_esi, of(esi_reply));
        checks("pte", lent[i][0], lent[i][1], lent[i][2], of_batch, of(pte));
    }
    for (uint32_t generation = 1; generation < 4; generation++) {
        checks("esi", 88, 100, 3, of_esi, of(esi_reply));
        checks("pte", 88, 100, 3, of_batch, of(pte));
        checks("pte", 88, 100, 3, of_batch, damaged(of(pte), 160, "0                "));
        enters(88, part2, CHECK, generation);
        tells(held, 88, 4);
    }
    /* No desk: its working key's generation doesn't follow the one before. */
    held[69] = 3;
    checks("esi", 88, 100, 3, of_esi, of(esi_reply));
    enters(88, part2, CHECK, 4);
    tells(held, 88, 4);
    /* A desk again; another transport key. */
    held[69] = 1;
    enters(88, UINT64_C(0xC41976010119012C), 0xC4F007, 4);
    tells(held, 88, 4);
}

int main(int argc, char **argv) {
    memset(held, 0x5A, sizeof held), memset(sent, 0x5A, sizeof sent);
    printf("size %" PRIu32 " %" PRIu32 "\n", lp_held_size(), lp_sent_size());
    opened(), was_sent();
    int status = cases(argc == 2 ? fopen(argv[1], "rb") : NULL);
    kept();
    return status;
}
