/* Every function of include/lentilpot.h called with known answers; what is printed has to be known.txt. tests/known.rs makes the
 * same calls in the same order from Rust, so header and Rust declarations agree where both print the same. */
#include "lentilpot.h"
#include <inttypes.h>
#include <stdio.h>
#include <string.h>

static uint8_t table[LP_TABLE_SIZE], session[LP_SESSION_SIZE], reply[LP_REPLY_ROOM + 3], before[LP_SESSION_SIZE];

/* FNV-1a, 64 bits */
static uint64_t sum(const uint8_t *bytes, size_t n) {
    uint64_t h = UINT64_C(0xCBF29CE484222325);
    for (size_t i = 0; i < n; i++) h = (h ^ bytes[i]) * UINT64_C(0x100000001B3);
    return h;
}

static void told(const char *call, uint32_t refusal) {
    printf("%s %" PRIu32 " table %016" PRIX64 "\n", call, refusal, sum(table, sizeof table));
}

static void answered(const char *call, uint64_t a) {
    size_t n = lp_reply_length(a);
    int past = 1;
    for (size_t i = n; i < sizeof reply; i++) past &= reply[i] == 0xA5;
    printf("%s %" PRIu32 " taken %zu finished %d", call, lp_refusal(a), lp_taken(a), lp_refusal(a) ? 0 : lp_finished(a));
    if (n) printf(" reply %c %.4s %zu %016" PRIX64, reply[11], (const char *)reply + 12, n, sum(reply, n));
    printf(" past %s session %s table %016" PRIX64 "\n", past ? "stays" : "CHANGES",
           memcmp(session, before, sizeof session) ? "moves" : "stays", sum(table, sizeof table));
}

static void open(uint32_t lent, uint32_t today, uint32_t time, uint32_t type, uint64_t clock) {
    told("open", lp_open(table, sizeof table, session, lent, today, time, type, clock));
}

static void read(size_t table_lent, size_t session_lent, const char *text, size_t room) {
    memcpy(before, session, sizeof session);
    memset(reply, 0xA5, sizeof reply);
    answered("read", lp_read(table, table_lent, session, session_lent, (const uint8_t *)text, strlen(text), reply, room));
}

static void end(size_t room) {
    memcpy(before, session, sizeof session);
    memset(reply, 0xA5, sizeof reply);
    answered("end", lp_end(table, sizeof table, session, sizeof session, reply, room));
}

int main(void) {
    const uint8_t *bank = (const uint8_t *)"003701234567             ", *software = (const uint8_t *)"FRONT 4         ";
    const uint8_t *a = (const uint8_t *)"99910000011111111        ", *b = (const uint8_t *)"SHOP AT THE BRIDG/2      ";
    const uint64_t k = UINT64_C(0x0123456789ABCDEF), v = UINT64_C(0xFEDCBA9876543210);
    const uint64_t part1 = UINT64_C(0xF18C57209492FEB3), part2 = UINT64_C(0xC71A7502021A022F);
    const uint32_t days[] = {941206, 941226, 950106}, falling[] = {941226, 941206}, unreal[] = {941301};
    const size_t t = sizeof table, s = sizeof session;
    const char *esi = ">>ESI161120 0000KERMIT      3.01SMH003701234567             99910000011111111        "
                      "00941015073000001                                          4B69B6DD4F72C75B0\nREST\n";

    memset(table, 0x5A, t);
    memset(session, 0, s);
    printf("session_size %" PRIu32 " %d\n", lp_session_size(), LP_SESSION_SIZE);
    told("order", lp_order(table, t, 941015, a, 25, 1));
    told("set_up", lp_set_up(table, t, bank, 25, software, 16, 110, k, v, unreal, 1));
    told("set_up", lp_set_up(table, t, bank, 25, software, 16, 110, k, v, falling, 2));
    told("set_up", lp_set_up(table, t - 1, bank, 25, software, 16, 110, k, v, days, 3));
    told("set_up", lp_set_up(table, t, bank, 24, software, 16, 110, k, v, days, 3));
    told("set_up", lp_set_up(table, t, bank, 25, software, 15, 110, k, v, days, 3));
    told("set_up", lp_set_up(table, t, bank, 25, software, 16, 120, v, k, NULL, 0));
    told("set_up", lp_set_up(table, t, bank, 25, software, 16, 110, k, v, days, 3));

    told("add", lp_add(table, t, 941301, a, 25, part1, part2, 0x028E4C, 0, 4, 1, 0, 1, 7));
    told("add", lp_add(table, t, 941015, a, 25, part1, part2 ^ 1, 0x028E4C, 0, 4, 1, 0, 1, 7));
    told("add", lp_add(table, t, 941015, a, 25, part1, part2, 0x1028E4C, 0, 4, 1, 0, 1, 7));
    told("add", lp_add(table, t, 941015, a, 24, part1, part2, 0x028E4C, 0, 4, 1, 0, 1, 7));
    told("add", lp_add(table, t, 941015, a, 25, part1, part2, 0x028E4C, 10, 4, 1, 0, 1, 7));
    told("add", lp_add(table, t, 941015, a, 25, part1, part2, 0x028E4C, 0, 0x10000, 1, 0, 1, 7));
    told("add", lp_add(table, t, 941015, a, 25, part1, part2, 0x028E4C, 0, 4, 2, 0, 1, 7));
    told("add", lp_add(table, t, 941015, a, 25, part1, part2, 0x028E4C, 0, 4, 1, 3, 1, 7));
    told("add", lp_add(table, t, 941015, a, 25, part1, part2, 0x028E4C, 0, 4, 1, 0, 2, 7));
    told("add", lp_add(table, t, 941015, a, 25, part1, part2, 0x028E4C, 0, 4, 1, 0, 1, 61));
    told("add", lp_add(table, t, 941015, a, 25, part1, part2, 0x028E4C, 0, 4, 1, 0, 1, 7));
    told("add", lp_add(table, t, 941015, a, 25, part1, part2, 0x028E4C, 0, 4, 1, 0, 1, 7));
    told("add", lp_add(table, t, 941015, b, 25, part1, part2, 0x028E4C, 9, 0x8001, 0, 1, 0, 99));

    open(s, 941014, 73215, 3, 7);
    open(s, 941015, 236000, 3, 7);
    open(s, 941015, 73215, 17, 7);
    open(s - 1, 941015, 73215, 3, 7);
    read(t, s, "HELLO", 317);
    open(s, 941015, 73215, 3, 7);
    read(t, s, esi, 316);
    read(t - 1, s, esi, 317);
    read(t, s - 1, esi, 317);
    read(t, s, esi, 320);
    read(t, s, esi + 162, 317);
    read(t, s, ">>SUO\n>>SUO", 317);
    end(316);
    end(317);
    read(t, s, "", 317);
    end(320);
    end(317);

    told("enter", lp_enter(table, t, 941016, a, 24, part2, part1, 0x028E4C, 1));
    told("enter", lp_enter(table, t, 941016, a, 25, part2, part1 ^ 1, 0x028E4C, 1));
    told("enter", lp_enter(table, t, 941016, a, 25, part2, part1, 0x028E4D, 1));
    told("enter", lp_enter(table, t, 941016, a, 25, part2, part1, 0x028E4C, 2));
    told("enter", lp_enter(table, t, 941016, a, 25, part2, part1, 0x028E4C, 1));
    told("enter", lp_enter(table, t, 941017, a, 25, part2, part1, 0x028E4C, 2));
    told("order", lp_order(table, t, 941016, a, 0, 42));
    told("order", lp_order(table, t, 941016, b, 25, UINT64_C(0xFFFFFFFFFFFFFFFE)));
    told("order", lp_order(table, t, 941115, b, 25, 42));
    told("order", lp_order(table, t, 941016, a, 25, 42));

    open(s, 941017, 91500, 16, 1);
    read(t, s, "HEL", 317);
    read(t, s, "LO", 317);
    end(317);
    return 0;
}
