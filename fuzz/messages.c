#include "messages.h"
#include "des.h"
#include <inttypes.h>
#include <stdio.h>
#include <stdlib.h>
#include <string.h>

uint8_t internal_code(uint8_t c) {
    if (c >= 'a' && c <= 'z') return (uint8_t)(c - 32);
    return (c >= 'A' && c <= 'Z') || (c >= '0' && c <= '9') || (c && strchr("%()*+,-./:;<=>", c)) ? c : ' ';
}

static void put_hex(uint8_t *out, uint64_t n) {
    for (int i = 0; i < 16; i++) out[i] = (uint8_t) "0123456789ABCDEF"[n >> (60 - 4 * i) & 15];
}

static void put_digits(uint8_t *out, size_t width, uint64_t n) {
    for (; width--; n /= 10) out[width] = (uint8_t)('0' + n % 10);
}

size_t write_message(uint8_t out[161], const struct message *m, uint64_t key) {
    int suo = m->kind[0] == 'S', esi = m->kind[0] == 'E';
    size_t length = suo ? SUO_LENGTH : VAR_LENGTH;
    memset(out, ' ', 161);
    memcpy(out, ">>", 2);
    memcpy(out + 2, m->kind, 3);
    put_digits(out + 5, 3, length);
    put_digits(out + 8, 3, m->version);
    memcpy(out + 12, "0000KERMIT      3.01", 20);
    memcpy(out + 32, m->method, 3);
    memcpy(out + 35, m->receiver, 25);
    memcpy(out + 60, m->sender, 25);
    put_digits(out + 85, 1, m->transport);
    put_digits(out + 86, 1, m->working);
    put_digits(out + 87, 15, m->stamp);
    out[102] = (uint8_t)m->mark;
    if (!esi) put_hex(out + 112, m->once);
    if (!esi && !suo) put_hex(out + 128, m->digest);
    if (m->twist_at < length) out[m->twist_at] = m->twist;
    if (suo) return length;
    uint8_t coded[144];
    for (size_t i = 0; i < 144; i++) coded[i] = internal_code(out[i]);
    put_hex(out + 144, mac(key, coded, 144));
    out[160] = (uint8_t)m->request;
    return length;
}

uint64_t digest_of(const uint8_t *data, size_t n, int strips_blanks, uint64_t once) {
    uint8_t *kept = malloc(n + 1);
    size_t size = 0;
    if (!kept) abort();
    for (size_t at = 0; at < n;) {
        const uint8_t *lf = memchr(data + at, '\n', n - at);
        size_t end = lf ? (size_t)(lf - data) : n, next = lf ? end + 1 : n;
        if (lf && end > at && data[end - 1] == '\r') end--;
        while (strips_blanks && end > at && data[end - 1] == ' ') end--;
        while (at < end) kept[size++] = internal_code(data[at++]);
        at = next;
    }
    uint64_t digest = mac(once, kept, size);
    free(kept);
    return digest;
}
