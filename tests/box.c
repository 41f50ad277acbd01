/* The header's helpers and constants: a customer by names is the one of fourteen arguments, and the fields of both kinds of reply
 * stand where the constants say; and a desk on the customer's side, with the same keys, has of each reply what it should. Prints what is wrong; exit status 0 where nothing is. usage: box samples/payments.txt */
#include "lentilpot.h"
#include <stdio.h>
#include <string.h>

enum { LINES = 13, MOST = 8 };
static const uint64_t part1 = UINT64_C(0xF18C57209492FEB3), part2 = UINT64_C(0xC71A7502021A022F);
static uint8_t table[LP_TABLE_SIZE], other[LP_TABLE_SIZE], session[LP_SESSION_SIZE], replies[MOST][LP_REPLY_ROOM];
static char lines[LINES][256];
static size_t sizes[MOST], count;
static uint32_t day = 941015, lowest = 110; /* what receive opens and sets up with */
static struct lp_customer sender;
static int wrong;

static void hold(int is, const char *what) {
    if (is) return;
    printf("box: %s\n", what);
    wrong = 1;
}

/* The field is the text, padded with blanks. */
static void field(const uint8_t *reply, size_t at, size_t width, const char *text) {
    size_t n = strlen(text);
    int is = n <= width && !memcmp(reply + at, text, n);
    for (size_t i = n; i < width; i++) is &= reply[at + i] == ' ';
    if (!is) printf("box: expected '%s' at %zu, found '%.*s'\n", text, at, (int)width, (const char *)reply + at), wrong = 1;
}

static void hex(const uint8_t *reply, size_t at) {
    for (size_t i = 0; i < 16; i++) hold(memchr("0123456789ABCDEF", reply[at + i], 16) != NULL, "a field isn't hex");
}

static uint32_t set_up(uint8_t *t) {
    uint8_t bank[LP_WHO_SIZE];
    lp_who(bank, "003701234567", "");
    return lp_set_up(t, LP_TABLE_SIZE, bank, sizeof bank, (const uint8_t *)"FRONT 4         ", 16, lowest, 1, 2, NULL, 0);
}

static struct lp_customer customer(void) {
    struct lp_customer c = {.part1 = part1, .part2 = part2, .check = 0x028E4C, .types = LP_TYPE(3), .agreed = 1, .leave = 1};
    lp_who(c.who, "99910000011111111", "");
    return c;
}

/* Both calls give the refusal and leave the same table. */
static void alike(struct lp_customer c, uint32_t given, uint32_t refusal, const char *what) {
    set_up(table), set_up(other);
    uint32_t a = lp_add_customer(table, sizeof table, 941015, &c);
    uint32_t b = lp_add(other, sizeof other, 941015, c.who, LP_WHO_SIZE, c.part1, c.part2, c.check, c.generation, c.types,
                        c.agreed, c.leave, given, c.length);
    hold(a == refusal && b == refusal && !memcmp(table, other, sizeof table), what);
}

static void customers(void) {
    struct lp_customer c = customer();
    hold(!memcmp(c.who, "99910000011111111        ", LP_WHO_SIZE), "lp_who pads");
    c.generation = 9, c.leave = 0, c.length = 60, c.types = LP_TYPE(1) | LP_TYPE(16);
    hold(lp_who(c.who, "SHOP", "/2345678") && !memcmp(c.who, "SHOP             /2345678", LP_WHO_SIZE), "lp_who's qualifier");
    alike(c, 1, LP_SERVED, "a customer with a length");
    alike(customer(), 0, LP_SERVED, "a customer without a length");
    c.length = 61, alike(c, 1, LP_REFUSED_ARGUMENT, "a length of 61");
    c = customer(), c.part1 ^= 1, alike(c, 0, LP_REFUSED_PARITY, "a part of even parity");
    c = customer(), c.check++, alike(c, 0, LP_REFUSED_CHECK_VALUE, "another check value");
    c = customer(), hold(!lp_who(c.who, "123456789012345678", ""), "lp_who: an identity of 18");
    alike(c, 0, LP_REFUSED_ARGUMENT, "an identity of 18");
    hold(!lp_who(c.who, "SHOP", "123456789"), "lp_who: a qualifier of 9");
    alike(c, 0, LP_REFUSED_ARGUMENT, "a qualifier of 9");
    hold(lp_order(table, sizeof table, 941015, c.who, LP_WHO_SIZE, 1) == LP_REFUSED_NO_CUSTOMER, "an order for a name too long");
    c = customer(), alike(c, 0, LP_SERVED, "a customer");
    hold(lp_order(table, sizeof table, 941015, c.who, LP_WHO_SIZE, 1) == LP_SERVED, "an order");
    hold(lp_order(table, sizeof table, 941015, c.who, LP_WHO_SIZE, 1) == LP_REFUSED_CHANGEOVER, "an order in a changeover");
}

/* The fields adjoin, from 0 to a PTE's end. */
static void adjoining(void) {
#define FIELD(name) {LP_AT_##name, LP_WIDTH_##name}
    static const size_t fields[][2] = {
        FIELD(KIND), FIELD(SIZE), FIELD(PATU), FIELD(VERDICT), FIELD(CODE), FIELD(SOFTWARE), FIELD(METHOD), FIELD(RECEIVER),
        FIELD(SENDER), FIELD(TRANSPORT_GENERATION), FIELD(WORKING_GENERATION), FIELD(STAMP), FIELD(AREA), FIELD(SPARE),
        FIELD(ONE_TIME_KEY), FIELD(DIGEST), FIELD(CHECKSUM), FIELD(KEY_FLAG), FIELD(NEW_KEY), FIELD(NOTICE), FIELD(RECEIPT)};
    size_t at = 0;
    for (size_t i = 0; i < sizeof fields / sizeof *fields; at += fields[i++][1]) hold(at == fields[i][0], "a field doesn't adjoin");
    hold(at == LP_REPLY_PTE_SIZE && at == LP_REPLY_ROOM && LP_AT_RECEIPT == LP_REPLY_ESI_SIZE, "the lengths of the replies");
}

static size_t keep(uint64_t answer) {
    if (lp_reply_length(answer)) sizes[count++] = lp_reply_length(answer);
    hold(lp_refusal(answer) == LP_SERVED && count < MOST, "a call was refused, or there are too many replies");
    return lp_taken(answer);
}

/* Receives text on a new table, its replies into replies. */
static void receive(const char *text) {
    size_t n = strlen(text), at = 0;
    uint64_t answer = 0;
    set_up(table), count = 0;
    lp_add_customer(table, sizeof table, day, &sender);
    lp_open(table, sizeof table, session, sizeof session, day, 91500, 3, 7);
    while (!wrong && at < n && !lp_finished(answer))
        at += keep(answer = lp_read(table, sizeof table, session, sizeof session, (const uint8_t *)text + at, n - at,
                                    replies[count], LP_REPLY_ROOM));
    while (!wrong && !lp_finished(answer))
        keep(answer = lp_end(table, sizeof table, session, sizeof session, replies[count], LP_REPLY_ROOM));
}

static void whole(const uint8_t *r, int pte, const char *stamp, const char *area, const char *once, const char *digest) {
    field(r, LP_AT_KIND, LP_WIDTH_KIND, pte ? ">>PTE" : ">>ESI");
    field(r, LP_AT_SIZE, LP_WIDTH_SIZE, pte ? "317" : "237");
    field(r, LP_AT_PATU, LP_WIDTH_PATU, "120");
    field(r, LP_AT_VERDICT, LP_WIDTH_VERDICT, "K");
    field(r, LP_AT_CODE, LP_WIDTH_CODE, "1001");
    field(r, LP_AT_SOFTWARE, LP_WIDTH_SOFTWARE, "FRONT 4");
    field(r, LP_AT_METHOD, LP_WIDTH_METHOD, "SMH");
    field(r, LP_AT_RECEIVER, LP_WIDTH_RECEIVER, "99910000011111111");
    field(r, LP_AT_SENDER, LP_WIDTH_SENDER, "003701234567");
    field(r, LP_AT_TRANSPORT_GENERATION, LP_WIDTH_TRANSPORT_GENERATION, "0");
    field(r, LP_AT_WORKING_GENERATION, LP_WIDTH_WORKING_GENERATION, "0");
    field(r, LP_AT_STAMP, LP_WIDTH_STAMP, stamp);
    field(r, LP_AT_AREA, LP_WIDTH_AREA, area);
    field(r, LP_AT_SPARE, LP_WIDTH_SPARE, "");
    field(r, LP_AT_ONE_TIME_KEY, LP_WIDTH_ONE_TIME_KEY, once);
    field(r, LP_AT_DIGEST, LP_WIDTH_DIGEST, digest);
    hex(r, LP_AT_CHECKSUM);
    field(r, LP_AT_KEY_FLAG, LP_WIDTH_KEY_FLAG, "0");
    field(r, LP_AT_NEW_KEY, LP_WIDTH_NEW_KEY, "");
    field(r, LP_AT_NOTICE, LP_WIDTH_NOTICE, "09:15:00 HYV\xC4KSYTTY");
    field(r, LP_AT_TEXT, LP_WIDTH_TEXT, "HYV\xC4KSYTTY");
    if (pte) field(r, LP_AT_RECEIPT, LP_WIDTH_RECEIPT, "");
}

static void sample(void) {
    static const uint32_t codes[] = {LP_CODE_ACCEPTED, LP_CODE_ACCEPTED, LP_CODE_DIGEST_DIFFERS, LP_CODE_SUO_MISSING,
                                     LP_CODE_ACCEPTED_KEY_CHANGE_GRANTED};
    char all[LINES * 256] = "";
    for (int i = 0; i < LINES; i++) strcat(all, lines[i]);
    receive(all);
    hold(count == 5, "five replies to the sample");
    for (size_t i = 0; i < 5; i++) {
        hold(sizes[i] == (i ? LP_REPLY_PTE_SIZE : LP_REPLY_ESI_SIZE), "a reply's length");
        hold(lp_reply_code(replies[i]) == codes[i], "a reply's code");
        hold(lp_reply_accepted(replies[i]) == (i != 2 && i != 3), "a reply's K or E");
    }
    whole(replies[0], 0, "941015073000001", " ", "", "");
    whole(replies[1], 1, "941015073125001", "S", "0EC755E2853DF893", "9253DA74AFBC703A");
    field(replies[3], LP_AT_RECEIVER, LP_WIDTH_RECEIVER, "");
    field(replies[3], LP_AT_STAMP, LP_WIDTH_STAMP, "000000000000000");
    field(replies[4], LP_AT_KEY_FLAG, LP_WIDTH_KEY_FLAG, "1");
    hex(replies[4], LP_AT_NEW_KEY);
}

/* A reply names a field and shows what was received in it, NULL where it shows none. */
static void tells(const uint8_t *reply, const char *name, const char *contents) {
    size_t length, at = lp_reply_field(reply, &length);
    hold(at && length == strlen(name) && !memcmp(reply + at, name, length), name);
    at = lp_reply_contents(reply, &length);
    hold(contents ? at && length == strlen(contents) && !memcmp(reply + at, contents, length) : !at && !length, "what was received in it");
}

/* Where the notice names a field. */
static void names(void) {
    char text[4 * 256];
    size_t length;
    receive("HELLO");
    hold(count == 1 && lp_reply_code(replies[0]) == LP_CODE_FIELD_FORMAT, "1010 for HELLO");
    field(replies[0], LP_AT_NAME_1010, LP_AT_NOTICE + LP_WIDTH_NOTICE - LP_AT_NAME_1010, "SANOMATUNNUS HELLO");
    tells(replies[0], "SANOMATUNNUS", "HELLO");
    receive("\xC4 H\x7F\n");
    tells(replies[0], "SANOMATUNNUS", "? H?");
    receive("\n");
    tells(replies[0], "SANOMATUNNUS", "");
    receive(strcat(strcpy(text, lines[0]), lines[0]));
    hold(count == 2 && lp_reply_code(replies[1]) == LP_CODE_FIELD_VALUE, "1011 for a later ESI");
    field(replies[1], LP_AT_NAME_1011, LP_AT_NOTICE + LP_WIDTH_NOTICE - LP_AT_NAME_1011, "SANOMATUNNUS >>ESI");
    tells(replies[1], "SANOMATUNNUS", ">>ESI");
    hold(!lp_reply_field(replies[0], &length) && !length && !lp_reply_contents(replies[0], &length) && !length, "an accepted message names no field");
    receive(strcat(strcat(strcpy(text, lines[0]), lines[1]), lines[8]));
    hold(count == 2 && lp_reply_code(replies[1]) == LP_CODE_SUO_AND_VAR_DIFFER, "1026 for another batch's VAR");
    field(replies[1], LP_AT_NAME_1026, strlen("KERTA-AVAIN:"), "KERTA-AVAIN:");
    tells(replies[1], "KERTA-AVAIN", NULL);
}

/* The last reply to a file has the code; the next file comes from the sample's customer on the sample's day. */
static void gives(uint32_t code, const char *text) {
    receive(text);
    if (!count || lp_reply_code(replies[count - 1]) != code) printf("box: %u isn't given\n", (unsigned)code), wrong = 1;
    sender = customer(), day = 941015, lowest = 110;
}

/* The sample's ESI with another character. */
static const char *esi(size_t at, char c) {
    static char text[256];
    strcpy(text, lines[0])[at] = c;
    return text;
}

static void codes(void) {
    char batch[6 * 256], asking[4 * 256], twice[12 * 256];
    strcpy(batch, lines[0]), strcpy(asking, lines[0]);
    for (int i = 1; i < 6; i++) strcat(batch, lines[i]);
    for (int i = 10; i < 13; i++) strcat(asking, lines[i]);
    strcat(strcpy(twice, batch), batch + strlen(lines[0]));
    gives(LP_CODE_ACCEPTED, batch);
    gives(LP_CODE_STAMP_USED, twice);
    gives(LP_CODE_VAR_MISSING, strcat(strcpy(twice, lines[0]), lines[1]));
    gives(LP_CODE_MESSAGE_TOO_SHORT, ">>ESI");
    gives(LP_CODE_OTHER_RECEIVER, esi(35, '9'));
    gives(LP_CODE_WORKING_KEY_NOT_VALID, esi(86, '5'));
    gives(LP_CODE_CHECKSUM_DIFFERS, esi(144, '0'));
    lowest = 120, gives(LP_CODE_VERSION_TOO_OLD, esi(9, '1'));
    day = 941014, gives(LP_CODE_DATE_AHEAD, batch);
    day = 941024, gives(LP_CODE_DATE_TOO_OLD, batch);
    sender.agreed = 0, gives(LP_CODE_NOT_AGREED, batch);
    sender.types = LP_TYPE(2), gives(LP_CODE_TYPE_NOT_ALLOWED, batch);
    sender.generation = 1, gives(LP_CODE_TRANSPORT_KEY_NOT_VALID, batch);
    sender.leave = 0, gives(LP_CODE_ACCEPTED_KEY_CHANGE_REFUSED, asking);
    lp_who(sender.who, "99910000011111111", "B"), gives(LP_CODE_UNKNOWN_CUSTOMER, batch);
}

/* A session of releases up to 1.1 had three bytes more after the SUO's extent, 475: it is refused, and nothing changes. */
static void earlier(void) {
    enum { EARLIER = 475, EXTENT = 228 };
    uint8_t old[EARLIER], kept[EARLIER], room[LP_REPLY_ROOM] = {1}, same[LP_REPLY_ROOM] = {1};
    hold(lp_session_size() == LP_SESSION_SIZE, "the session's size");
    receive(lines[0]);
    hold(lp_open(table, sizeof table, session, sizeof session, day, 91500, 3, 7) == LP_SERVED, "an opening");
    memcpy(other, table, sizeof table);
    memcpy(old, session, EXTENT + 1), memset(old + EXTENT + 1, 0, 3);
    memcpy(old + EXTENT + 4, session + EXTENT + 1, LP_SESSION_SIZE - EXTENT - 1), memcpy(kept, old, EARLIER);
    uint64_t read = lp_read(table, sizeof table, old, EARLIER, (const uint8_t *)lines[0], strlen(lines[0]), room, sizeof room);
    uint64_t end = lp_end(table, sizeof table, old, EARLIER, room, sizeof room);
    uint64_t open = lp_open(table, sizeof table, old, EARLIER, day, 91500, 3, 7);
    hold(lp_refusal(read) == LP_REFUSED_SESSION && !lp_taken(read) && !lp_reply_length(read), "a read with an earlier release's session");
    hold(lp_refusal(end) == LP_REFUSED_SESSION && !lp_reply_length(end), "an end with an earlier release's session");
    hold(open == LP_REFUSED_ARGUMENT, "an opening with an earlier release's room");
    hold(!memcmp(old, kept, EARLIER) && !memcmp(room, same, sizeof room) && !memcmp(table, other, sizeof table), "a refused call changed something");
    hold(lp_refusal(lp_read(table, sizeof table, session, sizeof session, (const uint8_t *)"", 0, room, sizeof room)) == LP_SERVED, "a read");
}

/* A line of the sample without its line end: how many characters. */
static size_t width(int line) {
    return strcspn(lines[line], "\r\n");
}

/* A desk checks a reply to the message, or the batch, that begins and ends in these lines. */
static uint32_t checked(uint8_t *held, int first, int closing, size_t reply, uint32_t *word) {
    uint8_t sent[LP_SENT_SIZE];
    uint32_t refusal = lp_sent_of((const uint8_t *)lines[first], width(first), (const uint8_t *)lines[closing], width(closing), sent, sizeof sent);
    hold(refusal == LP_SERVED, "what was sent");
    return first ? lp_check_pte(held, LP_HELD_SIZE, sent, sizeof sent, replies[reply], sizes[reply], word, LP_WORDS)
                 : lp_check_esi(held, LP_HELD_SIZE, sent, sizeof sent, replies[reply], sizes[reply], word, LP_WORDS);
}

/* The sample's replies pass at a desk that holds the same keys, but for 1023, which answers no batch; the key that the last one encloses is
 * then the bank's current one. A table without holidays has its first customer at 82, the customer's working keys at 57 (docs/FORMAT.md). */
static void desk(void) {
    static const int places[][2] = {{0, 0}, {1, 5}, {6, 8}, {10, 12}, {10, 12}};
    uint8_t held[LP_HELD_SIZE], bank[LP_WHO_SIZE], *keys = table + 82 + 57;
    uint32_t word[LP_WORDS];
    lp_who(bank, "003701234567", "");
    hold(lp_held_open(held, sizeof held, sender.who, LP_WHO_SIZE, bank, sizeof bank, part1, part2, 0x028E4C, 0) == LP_SERVED, "a desk is opened");
    sample();
    for (size_t i = 0; i < 5; i++) {
        uint32_t found = checked(held, places[i][0], places[i][1], i, word);
        hold(found == (i == 3 ? LP_FINDING_FIELD_FORMAT : LP_PASSES), "the desk's finding of a reply to the sample");
        hold(word[LP_WORD_LETTER] == replies[i][LP_AT_VERDICT] && word[LP_WORD_CODE] == lp_reply_code(replies[i]), "the bank's word");
    }
    hold(held[69] == 1 && !memcmp(held + 69, keys, 19), "the desk and the bank have parted");
    /* each reply goes with its own batch alone */
    hold(checked(held, 6, 8, 1, word) == LP_FINDING_SUO_AND_PTE_DIFFER && word[LP_WORD_FIELD] == 120, "another batch's reply");
    hold(checked(held, 1, 8, 1, word) == LP_FINDING_DIGEST_DIFFERS && word[LP_WORD_FIELD] == 0, "another batch's digest");
}

int main(int argc, char **argv) {
    FILE *f = argc == 2 ? fopen(argv[1], "rb") : NULL;
    int n = 0;
    while (f && n < LINES && fgets(lines[n], sizeof lines[n], f)) n++;
    hold(n == LINES, "the sample has 13 lines");
    hold(LP_VERSION_NUMBER == 100 * (LP_VERSION[0] - '0') + (LP_VERSION[2] - '0'), "the two versions");
    sender = customer();
    customers(), adjoining(), sample(), names(), codes(), earlier(), desk();
    return wrong;
}
