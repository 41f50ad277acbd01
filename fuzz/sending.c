#include "sending.h"
#include "des.h"
#include "messages.h"
#include <stdio.h>
#include <string.h>

const uint8_t *source;
size_t source_left;
struct bank bank;
uint32_t today;

uint8_t next_byte(void) {
    if (!source_left) return 0;
    source_left--;
    return *source++;
}

uint32_t pick(uint32_t n) { return next_byte() % n; }

int rarely(void) { return next_byte() >= 240; }

uint64_t wide(void) {
    uint64_t n = 0;
    for (int i = 0; i < 8; i++) n = n << 8 | next_byte();
    return n;
}

static const char *const names[] = {
    "99910000011111111        ", "99910000011111111B       ", "99910000011111111       B", "SHOP AT THE BRIDG/2      ",
    " LEADING                 ", "Z                       1",
};

void name_of(uint8_t out[26], unsigned i) {
    if (i < sizeof names / sizeof *names) memcpy(out, names[i], 26);
    else snprintf((char *)out, 26, "%017u        ", i);
}

void someone(uint8_t who[26]) {
    uint64_t n = bank.sound ? number_at(bank.table + CUSTOMER_COUNT, 4) : 0;
    if (!n || rarely()) name_of(who, next_byte());
    else memcpy(who, bank.table + number_at(bank.table + CUSTOMER_OFFSET, 4) + CUSTOMER_SIZE * pick((uint32_t)n), 25);
    if (rarely()) who[pick(25)] = next_byte();
}

void append(struct sending *s, const uint8_t *bytes, size_t n) {
    if (n > BYTES_MOST - s->size) return;
    memcpy(s->bytes + s->size, bytes, n);
    s->size += n;
}

/* A message in records of so many characters, 0 for one record. */
static void append_folded(struct sending *s, const uint8_t *text, size_t n, size_t width, int cr) {
    for (size_t at = 0; at < n;) {
        size_t part = width && width < n - at ? width : n - at;
        append(s, text + at, part);
        append(s, (const uint8_t *)"\r\n" + !cr, cr ? 2 : 1);
        at += part;
    }
}

static size_t a_width(void) {
    static const uint8_t widths[] = {0, 0, 0, 0, 80, 80, 11, 161, 128, 40};
    return widths[pick(sizeof widths)];
}

/* A stamp out of few, so that repeats come. */
static uint64_t a_stamp(void) {
    static const uint32_t times[] = {73000, 0, 235959, 80000};
    uint32_t date = today, back = pick(16), time = times[pick(4)];
    if (back >= 8) back = back == 8 ? 1 : back == 9 ? 4 : back == 10 ? 7 : back == 11 ? 9 : 0;
    else back = 0;
    while (back--) date = day_before(date);
    if (rarely()) date = rarely() ? next_byte() * 3000u : days_later(today, 1);
    if (rarely()) time = next_byte() * 1000u;
    return date * UINT64_C(1000000000) + time * UINT64_C(1000) + pick(16);
}

/* A generation to name: the current, the previous, or any digit. */
static uint32_t a_generation(const uint8_t *keys) {
    uint32_t how = next_byte();
    if (how >= 240) return how % 10;
    return how >= 160 && keys[HELD] ? keys[OLD_GENERATION] : keys[GENERATION];
}

static uint64_t key_of(const uint8_t *keys, uint32_t generation) {
    if (keys[HELD] && keys[OLD_GENERATION] == generation) return number_at(keys + OLD_KEY, 8);
    return number_at(keys + KEY, 8);
}

/* A byte to be put over another before the checksum is made; 255 is past every message. */
static void a_twist(struct message *m) {
    static const char bytes[] = "0123456789 SAKHEM11<ab\r\n\xC4";
    m->twist_at = rarely() ? pick(162) : 255;
    m->twist = m->twist_at == 255 ? 0 : pick(2) ? next_byte() : (uint8_t)bytes[pick(sizeof bytes - 1)];
}

/* What ESI and SUO begin with: sender, generations, stamp. Gives the sender's record, or null. */
static const uint8_t *start_message(struct message *m, uint8_t who[26]) {
    static const uint8_t nobody[CUSTOMER_SIZE];
    memset(m, 0, sizeof *m);
    someone(who);
    const uint8_t *c = bank.sound ? customer_of(bank.table, who, 25) : NULL;
    if (!c) c = nobody;
    m->receiver = bank.table + BANK;
    m->sender = who;
    m->version = rarely() ? 100u + pick(30) : 120 - 10 * (pick(16) == 15);
    m->transport = a_generation(c + TRANSPORT);
    m->working = a_generation(c + WORKING);
    m->stamp = a_stamp();
    m->mark = ' ';
    m->request = "0000000011111222"[pick(16)];
    if (rarely()) m->request = (char)next_byte();
    return c;
}

void add_esi(struct sending *s) {
    uint8_t text[161], who[26];
    struct message m;
    const uint8_t *c = start_message(&m, who);
    m.kind = "ESI";
    m.method = "SMH";
    a_twist(&m);
    size_t n = write_message(text, &m, key_of(c + WORKING, m.working));
    append_folded(s, text, n, a_width(), rarely());
}

/* Data records: some lines of print, blanks at their ends, bytes from the source. */
static size_t some_data(uint8_t *data, size_t most) {
    static const char *const lines[] = {"1921030 2590180000001401MATTI MEIK#L#INEN   \n", "A#  \n", "   \n", "\n", "AB  \r\n",
                                        "0123456\n", "01234567\n", "abc\xC4\r\r\n", ">>var161120\n", "X"};
    size_t size = 0;
    for (uint32_t n = pick(4); n; n--) {
        const char *line = lines[pick(sizeof lines / sizeof *lines)];
        size_t length = strlen(line);
        if (length > most - size) break;
        memcpy(data + size, line, length);
        size += length;
    }
    for (uint32_t n = rarely() ? pick(32) : 0; n && size < most; n--) data[size++] = next_byte();
    if (size && size < most && data[size - 1] != '\n') data[size++] = '\n';
    return size;
}

void add_batch(struct sending *s, int numbered, uint32_t number) {
    uint8_t suo[161], var[161], who[26], data[512];
    struct message m;
    const uint8_t *c = start_message(&m, who);
    int strips = (int)pick(2), cr = rarely();
    uint64_t once = with_parity(UINT64_C(0x0204060810204080) * (numbered ? number + 1000 : next_byte() + 1u));
    if (numbered) m.stamp = today * UINT64_C(1000000000) + UINT64_C(120000000) + number;
    if (rarely()) once ^= 1;
    m.kind = "SUO";
    m.method = strips ? "SKH" : "SKE";
    m.mark = pick(2) ? 'A' : 'S';
    m.once = encipher(key_of(c + TRANSPORT, m.transport), once);
    a_twist(&m);
    append_folded(s, suo, write_message(suo, &m, 0), a_width(), cr);
    size_t n = numbered ? 0 : some_data(data, sizeof data);
    if (!n && !rarely()) data[n++] = 'D', data[n++] = '\n';
    append(s, data, n);
    m.kind = "VAR";
    m.method = "SMH";
    m.digest = digest_of(data, n, strips, once);
    a_twist(&m);
    if (rarely()) return; /* a frame without its end */
    append_folded(s, var, write_message(var, &m, key_of(c + WORKING, m.working)), a_width(), cr);
}

void add_raw(struct sending *s) {
    static const char *const tags[] = {">>ESI", ">>SUO", ">>VAR", ">>ESI161120", ">>SUO128120", ">>VAR161120", "\n", "\r\n", " "};
    uint8_t bytes[64];
    size_t n = pick(sizeof bytes);
    const char *tag = tags[pick(sizeof tags / sizeof *tags)];
    for (size_t i = 0; i < n; i++) bytes[i] = next_byte();
    if (pick(2)) append(s, (const uint8_t *)tag, strlen(tag));
    append(s, bytes, n);
}

/* The place where the record after a chosen place begins. */
static size_t record_after(const struct sending *s, size_t at) {
    const uint8_t *lf = at < s->size ? memchr(s->bytes + at, '\n', s->size - at) : NULL;
    return lf ? (size_t)(lf - s->bytes) + 1 : s->size;
}

/* Flips a byte, drops a record, repeats a stretch, or cuts the end, in what isn't taken yet (a repeat may be of what is). */
void damage(struct sending *s) {
    size_t left = s->size - s->taken, place = s->taken + (left ? (next_byte() << 8 | next_byte()) % left : 0);
    uint32_t how = pick(4);
    if (!left && how != 2) return;
    if (how == 0) s->bytes[place] ^= (uint8_t)(1u << pick(8));
    if (how == 1) {
        size_t end = record_after(s, place);
        memmove(s->bytes + place, s->bytes + end, s->size - end);
        s->size -= end - place;
    }
    if (how == 2) {
        uint8_t again[BYTES_MOST];
        size_t from = record_after(s, pick(256) % (s->size + 1)), end = s->size;
        memcpy(again, s->bytes + from, end - from);
        append(s, again, end - from);
    }
    if (how == 3) s->size = place;
}

size_t a_room(void) {
    static const uint16_t rooms[] = {316, 0, 318, 400, 1, 634};
    return rarely() ? rooms[pick(6)] : LP_REPLY_ROOM;
}

size_t a_cut(void) {
    static const uint8_t cuts[] = {0, 0, 0, 80, 161, 1, 7, 162, 100, 50};
    return cuts[pick(sizeof cuts)];
}
