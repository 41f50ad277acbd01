#include "des.h"

/* FIPS 46-3; bits are numbered from 1, the highest first. */
static const uint8_t IP[64] = {58, 50, 42, 34, 26, 18, 10, 2,  60, 52, 44, 36, 28, 20, 12, 4,  62, 54, 46, 38, 30, 22,
                               14, 6,  64, 56, 48, 40, 32, 24, 16, 8,  57, 49, 41, 33, 25, 17, 9,  1,  59, 51, 43, 35,
                               27, 19, 11, 3,  61, 53, 45, 37, 29, 21, 13, 5,  63, 55, 47, 39, 31, 23, 15, 7};
static const uint8_t FP[64] = {40, 8,  48, 16, 56, 24, 64, 32, 39, 7,  47, 15, 55, 23, 63, 31, 38, 6,  46, 14, 54, 22,
                               62, 30, 37, 5,  45, 13, 53, 21, 61, 29, 36, 4,  44, 12, 52, 20, 60, 28, 35, 3,  43, 11,
                               51, 19, 59, 27, 34, 2,  42, 10, 50, 18, 58, 26, 33, 1,  41, 9,  49, 17, 57, 25};
static const uint8_t E[48] = {32, 1,  2,  3,  4,  5,  4,  5,  6,  7,  8,  9,  8,  9,  10, 11, 12, 13, 12, 13, 14, 15, 16, 17,
                              16, 17, 18, 19, 20, 21, 20, 21, 22, 23, 24, 25, 24, 25, 26, 27, 28, 29, 28, 29, 30, 31, 32, 1};
static const uint8_t P[32] = {16, 7, 20, 21, 29, 12, 28, 17, 1,  15, 23, 26, 5,  18, 31, 10,
                              2,  8, 24, 14, 32, 27, 3,  9,  19, 13, 30, 6,  22, 11, 4,  25};
static const uint8_t PC1[56] = {57, 49, 41, 33, 25, 17, 9,  1,  58, 50, 42, 34, 26, 18, 10, 2,  59, 51, 43,
                                35, 27, 19, 11, 3,  60, 52, 44, 36, 63, 55, 47, 39, 31, 23, 15, 7,  62, 54,
                                46, 38, 30, 22, 14, 6,  61, 53, 45, 37, 29, 21, 13, 5,  28, 20, 12, 4};
static const uint8_t PC2[48] = {14, 17, 11, 24, 1,  5,  3,  28, 15, 6,  21, 10, 23, 19, 12, 4,  26, 8,  16, 7,  27, 20, 13, 2,
                                41, 52, 31, 37, 47, 55, 30, 40, 51, 45, 33, 48, 44, 49, 39, 56, 34, 53, 46, 42, 50, 36, 29, 32};
static const uint8_t SHIFTS[16] = {1, 1, 2, 2, 2, 2, 2, 2, 1, 2, 2, 2, 2, 2, 2, 1};
static const char *const BOXES[8] = {"E4D12FB83A6C59070F74E2D1A6CB953841E8D62BFC973A50FC8249175B3EA06D",
                                     "F18E6B34972DC05A3D47F28EC01A69B50E7BA4D158C6932FD8A13F42B67C05E9",
                                     "A09E63F51DC7B428D709346A285ECBF1D6498F30B12C5AE71AD069874FE3B52C",
                                     "7DE3069A1285BC4FD8B56F03472C1AE9A690CB7DF13E52843F06A1D8945BC72E",
                                     "2C417AB6853FD0E9EB2C47D150FA3986421BAD78F9C5630EB8C71E2D6F09A453",
                                     "C1AF92680D34E75BAF427C9561DE0B389EF528C3704A1DB6432C95FABE17608D",
                                     "4B2EF08D3C975A61D0B7491AE35C2F8614BDC37EAF6805926BD814A7950FE23C",
                                     "D2846FB1A93E50C71FD8A374C56B0E927B419CE206ADF35821E74A8DFC90356B"};

/* The selections byte by byte, and each box with P after it: bit by bit a message would cost more than the call it is for. */
static uint64_t first[8][256], last[8][256], spread[4][256];
static uint32_t boxed[8][64];

static uint64_t selected(uint64_t x, unsigned width, const uint8_t *from, unsigned n) {
    uint64_t out = 0;
    for (unsigned i = 0; i < n; i++) out = out << 1 | (x >> (width - from[i]) & 1);
    return out;
}

static unsigned digit(char c) { return (unsigned)(c <= '9' ? c - '0' : c - 'A' + 10); }

void des_prepare(void) {
    for (unsigned i = 0; i < 8; i++)
        for (unsigned v = 0; v < 256; v++) {
            first[i][v] = selected((uint64_t)v << (56 - 8 * i), 64, IP, 64);
            last[i][v] = selected((uint64_t)v << (56 - 8 * i), 64, FP, 64);
            if (i < 4) spread[i][v] = selected((uint64_t)v << (24 - 8 * i), 32, E, 48);
            if (v < 64) {
                unsigned row = (v >> 5) * 2 + (v & 1), column = v >> 1 & 15;
                boxed[i][v] = (uint32_t)selected((uint64_t)digit(BOXES[i][16 * row + column]) << (28 - 4 * i), 32, P, 32);
            }
        }
}

static uint64_t through(const uint64_t t[8][256], uint64_t x) {
    uint64_t out = 0;
    for (unsigned i = 0; i < 8; i++) out |= t[i][x >> (56 - 8 * i) & 255];
    return out;
}

static void schedule(uint64_t key, int back, uint64_t rounds[16]) {
    uint64_t k = selected(key, 64, PC1, 56), c = k >> 28, d = k & 0xFFFFFFF;
    for (unsigned i = 0; i < 16; i++) {
        c = (c << SHIFTS[i] | c >> (28 - SHIFTS[i])) & 0xFFFFFFF;
        d = (d << SHIFTS[i] | d >> (28 - SHIFTS[i])) & 0xFFFFFFF;
        rounds[back ? 15 - i : i] = selected(c << 28 | d, 56, PC2, 48);
    }
}

static uint64_t cipher(const uint64_t rounds[16], uint64_t block) {
    uint64_t x = through(first, block);
    uint32_t l = (uint32_t)(x >> 32), r = (uint32_t)x;
    for (unsigned k = 0; k < 16; k++) {
        uint64_t e = rounds[k];
        for (unsigned i = 0; i < 4; i++) e ^= spread[i][r >> (24 - 8 * i) & 255];
        uint32_t f = 0, was = l;
        for (unsigned i = 0; i < 8; i++) f |= boxed[i][e >> (42 - 6 * i) & 63];
        l = r;
        r = was ^ f;
    }
    return through(last, (uint64_t)r << 32 | l);
}

uint64_t encipher(uint64_t key, uint64_t block) {
    uint64_t rounds[16];
    schedule(key, 0, rounds);
    return cipher(rounds, block);
}

uint64_t decipher(uint64_t key, uint64_t block) {
    uint64_t rounds[16];
    schedule(key, 1, rounds);
    return cipher(rounds, block);
}

uint64_t mac(uint64_t key, const uint8_t *bytes, size_t n) {
    uint64_t rounds[16], chain = 0;
    schedule(key, 0, rounds);
    for (size_t i = 0; i < n; i += 8) {
        uint64_t block = 0;
        for (size_t j = 0; j < 8; j++) block = block << 8 | (i + j < n ? bytes[i + j] : 0);
        chain = cipher(rounds, chain ^ block);
    }
    return chain;
}

uint64_t with_parity(uint64_t key) {
    uint64_t out = 0;
    for (int i = 56; i >= 0; i -= 8) {
        unsigned b = key >> i & 254;
        out = out << 8 | b | (__builtin_popcount(b) + 1u) % 2;
    }
    return out;
}

int is_odd(uint64_t key) { return with_parity(key) == key; }
