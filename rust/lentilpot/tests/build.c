/* The builder's functions of include/lentilpot.h called with known answers; what is printed has to be build.txt. tests/build.rs makes the
 * same calls in the same order from Rust, and says what the lines of build_cases.txt are. usage: build build_cases.txt */
#include "appendix_3.h"
#include "lentilpot.h"
#include <inttypes.h>
#include <stdio.h>
#include <stdlib.h>
#include <string.h>

enum { ROOM = 176 };
/* Bytes and how many. */
struct bytes {
    uint8_t at[256];
    size_t length;
};
/* What is given and lent, and how much of each room. */
static struct given {
    struct bytes held, software, method, stamp, batch, record;
    uint32_t request, area;
    uint64_t clock;
    size_t maker, text, suo_text, sent, room;
} good;
/* What a call writes, longer than it should be. */
static uint8_t text[ROOM], sent[ROOM], batch[ROOM];
static uint64_t maker[4];

/* The records of appendix 3 with their blanks, which the print has lost. */
static const char *const records[] = {
    "1921030  259018000000140111111116100000000121MATTI MEIK#L#INEN  010101001A",
    "1921030  259018000000140111111116100000000321MAIJA MEIK#L#INEN  010201001A",
    "1921030  259018000000140111111116100000000421#. #. #LAND        010101001A",
    "1921030  259018000000140111111116100000000521#. @. $LAND        010101001A",
    "4921030                0111111116100000001384                   000004",
};

/* FNV-1a, 64 bits */
static uint64_t sum(const uint8_t *bytes, size_t n) {
    uint64_t h = UINT64_C(0xCBF29CE484222325);
    for (size_t i = 0; i < n; i++) h = (h ^ bytes[i]) * UINT64_C(0x100000001B3);
    return h;
}

static struct bytes of(const char *characters) {
    struct bytes b = {{0}, strlen(characters)};
    memcpy(b.at, characters, b.length);
    return b;
}

/* The text over the bytes at that place, blanks between; where it is empty the bytes end there. */
static void damage(struct bytes *b, size_t at, const char *over) {
    size_t n = strlen(over);
    if (!n) b->length = at < b->length ? at : b->length;
    for (; n && b->length < at + n; b->length++) b->at[b->length] = ' ';
    memcpy(b->at + at, over, n);
}

static void fresh(void) {
    memset(text, 0x5A, ROOM), memset(sent, 0x5A, ROOM), memset(batch, 0x5A, ROOM);
    /* At this clock value the maker makes the one-time key of appendix 3. */
    maker[0] = UINT64_C(0x0123456789ABCDEF), maker[1] = UINT64_C(0xE2BE85CF2074082C), maker[2] = 3, maker[3] = 4;
}

static uint32_t builds_esi(const struct given *g) {
    return lp_build_esi(g->held.at, g->held.length, g->software.at, g->software.length, g->stamp.at, g->stamp.length, g->request, text, g->text, sent,
                        g->sent);
}

static uint32_t builds_suo(const struct given *g) {
    return lp_build_suo(g->held.at, g->held.length, maker, g->maker, g->clock, g->software.at, g->software.length, g->method.at, g->method.length,
                        g->stamp.at, g->stamp.length, g->area, text, g->suo_text, batch, g->room);
}

static uint32_t builds_var(const struct given *g) {
    return lp_build_var(g->batch.at, g->batch.length, g->request, text, g->text, sent, g->sent);
}

/* The four calls, one after the other, and all that they wrote. */
static void tell(struct given g) {
    fresh();
    uint32_t told = builds_esi(&g);
    printf("esi %" PRIu32 " %016" PRIX64 " %016" PRIX64 " ", told, sum(text, ROOM), sum(sent, ROOM));
    fresh(), told = builds_suo(&g);
    printf("suo %" PRIu32, told);
    for (size_t i = 0; i < 4; i++) printf(" %016" PRIX64, maker[i]);
    printf(" %016" PRIX64 " %016" PRIX64 " ", sum(text, ROOM), sum(batch, ROOM));
    told = lp_add_record(g.batch.at, g.batch.length, g.record.at, g.record.length);
    printf("record %" PRIu32 " %016" PRIX64 " ", told, sum(g.batch.at, g.batch.length));
    fresh(), told = builds_var(&g);
    printf("var %" PRIu32 " %016" PRIX64 " %016" PRIX64 "\n", told, sum(text, ROOM), sum(sent, ROOM));
}

/* Appendix 3: its messages as they are printed, but for the identity, which has one character too many there. The batch is left. */
static void from_appendix_3(void) {
    struct given g = good;
    fresh(), g.stamp = of("941015073000001");
    uint32_t told = builds_esi(&g);
    printf("%" PRIu32 " %.*s\n", told, LP_ESI_SIZE, (const char *)text);
    told = builds_suo(&good);
    printf("%" PRIu32 " %.*s\n", told, LP_SUO_SIZE, (const char *)text);
    memcpy(good.batch.at, batch, LP_BATCH_SIZE), good.batch.length = LP_BATCH_SIZE;
    for (size_t i = 0; i < sizeof records / sizeof *records; i++)
        printf("record %" PRIu32 "\n", lp_add_record(good.batch.at, LP_BATCH_SIZE, (const uint8_t *)records[i], strlen(records[i])));
    told = builds_var(&good);
    printf("%" PRIu32 " %.*s\n", told, LP_VAR_SIZE, (const char *)text);
}

/* With what a line says changed. */
static int changed(struct given *g, const char *what, uint64_t n, const char *over) {
    size_t at = (size_t)n;
    if (!strcmp(what, "held")) damage(&g->held, at, over);
    else if (!strcmp(what, "software")) damage(&g->software, at, over);
    else if (!strcmp(what, "method")) damage(&g->method, at, over);
    else if (!strcmp(what, "stamp")) damage(&g->stamp, at, over);
    else if (!strcmp(what, "batch")) damage(&g->batch, at, over);
    else if (!strcmp(what, "record")) g->record.length = 0, damage(&g->record, at, over);
    else if (!strcmp(what, "request")) g->request = (uint32_t)n;
    else if (!strcmp(what, "area")) g->area = (uint32_t)n;
    else if (!strcmp(what, "clock")) g->clock = n;
    else if (!strcmp(what, "maker")) g->maker = at;
    else if (!strcmp(what, "text")) g->text = g->suo_text = at;
    else if (!strcmp(what, "sent")) g->sent = at;
    else if (!strcmp(what, "room")) g->room = at;
    else return 0;
    return 1;
}

int main(int argc, char **argv) {
    FILE *f = argc == 2 ? fopen(argv[1], "rb") : NULL;
    char line[128], what[16], *end;
    size_t count = 0;
    good.software = of("KERMIT      3.01"), good.method = of(LP_SKH), good.stamp = of("941015073125001"), good.record = of("PAYMENT 1   ");
    good.held.length = LP_HELD_SIZE, good.request = LP_REQUEST_NONE, good.area = LP_AREA_TRANSFER, good.clock = UINT64_C(0x1994101408000000);
    good.maker = LP_MAKER_SIZE, good.text = LP_VAR_SIZE, good.suo_text = LP_SUO_SIZE, good.sent = LP_SENT_SIZE, good.room = LP_BATCH_SIZE;
    if (lp_held_open(good.held.at, LP_HELD_SIZE, (const uint8_t *)OWN, 25, (const uint8_t *)BANK, 25, part1, part2, CHECK, 0)) return 2;
    printf("size %" PRIu32 "\n", lp_batch_size());
    from_appendix_3();
    for (; f && fgets(line, sizeof line, f); count++) {
        struct given g = good;
        char *over = strchr(line, '|') + 1;
        *strrchr(over, '|') = 0;
        if (sscanf(line, "%15s", what) != 1) return 2;
        if (!changed(&g, what, strtoull(line + strlen(what), &end, 10), over)) return 2;
        tell(g);
    }
    return count ? 0 : 2;
}
