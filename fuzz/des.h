/* DES, the MAC and parity, written apart from the proved code so that the two can be held against each other. */
#ifndef FUZZ_DES_H
#define FUZZ_DES_H

#include <stddef.h>
#include <stdint.h>

/* To be called once, before all else here. */
void des_prepare(void);

uint64_t encipher(uint64_t key, uint64_t block);
uint64_t decipher(uint64_t key, uint64_t block);

/* The MAC of bytes that are in the internal code already. */
uint64_t mac(uint64_t key, const uint8_t *bytes, size_t n);

uint64_t with_parity(uint64_t key);
int is_odd(uint64_t key);

#endif
