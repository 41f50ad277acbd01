/* The sample bank through the header's calls, as samples/bank.sh and samples/run have it through the program:
 *     bank TABLE          sets it up in a new file
 *     bank TABLE order    orders a working key for its first customer */
#include "lentilpot.h"
#include <stdio.h>
#include <string.h>

static uint8_t table[LP_TABLE_SIZE];

static uint32_t add(const char *qualifier, uint32_t types, uint32_t leave, uint32_t length) {
    struct lp_customer c = {.part1 = UINT64_C(0xF18C57209492FEB3), .part2 = UINT64_C(0xC71A7502021A022F), .check = 0x028E4C,
                            .types = types, .agreed = 1, .leave = leave, .length = length};
    lp_who(c.who, "99910000011111111", qualifier);
    return lp_add_customer(table, sizeof table, 941014, &c);
}

static uint32_t set_up(void) {
    static const uint32_t holidays[] = {941024, 941206, 941226};
    uint8_t bank[LP_WHO_SIZE];
    lp_who(bank, "003701234567", "");
    uint32_t refusal = lp_set_up(table, sizeof table, bank, sizeof bank, (const uint8_t *)"FRONT 4         ", 16, 110,
                                 UINT64_C(0x0123456789ABCDEF), 7, holidays, 3);
    if (!refusal) refusal = add("", LP_TYPE(1) | LP_TYPE(3) | LP_TYPE(16), 1, 0);
    return refusal ? refusal : add("B", LP_TYPE(1), 0, 45);
}

static uint32_t order(const char *name) {
    uint8_t who[LP_WHO_SIZE];
    FILE *f = fopen(name, "rb");
    if (!f || fread(table, 1, sizeof table, f) != sizeof table) return LP_REFUSED_NO_TABLE;
    fclose(f);
    lp_who(who, "99910000011111111", "");
    return lp_order(table, sizeof table, 941017, who, sizeof who, 2);
}

int main(int argc, char **argv) {
    uint32_t refusal = argc == 2 ? set_up() : argc == 3 && !strcmp(argv[2], "order") ? order(argv[1]) : LP_REFUSED_ARGUMENT;
    FILE *f = refusal ? NULL : fopen(argv[1], "wb");
    if (!f || fwrite(table, 1, sizeof table, f) != sizeof table || fclose(f)) {
        fprintf(stderr, "bank: %s\n", refusal ? lp_refusal_words(refusal) : "the table can't be written");
        return 1;
    }
    return 0;
}
