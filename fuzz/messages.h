/* A customer's messages with right checksums and digests, as document 01 lays them out. */
#ifndef FUZZ_MESSAGES_H
#define FUZZ_MESSAGES_H

#include <stddef.h>
#include <stdint.h>

struct message {
    const char *kind, *method; /* "ESI", "SUO", "VAR"; "SMH", "SKE", "SKH" */
    const uint8_t *receiver, *sender;
    uint32_t version, transport, working; /* generations */
    uint64_t stamp;                       /* yymmddhhmmssnnn */
    char mark, request;                   /* fields 13 and 18 */
    uint64_t once, digest;                /* field 15 as it is sent, field 16 */
    size_t twist_at;                      /* a byte put over another before the checksum is made; past the message: none */
    uint8_t twist;
};

enum { ESI_LENGTH = 161, SUO_LENGTH = 128, VAR_LENGTH = 161 };

/* Gives the length. `key` is the working key for the checksum. */
size_t write_message(uint8_t out[161], const struct message *m, uint64_t key);

uint8_t internal_code(uint8_t c);

/* The digest of the data's records as they stand in the file, line ends and all. */
uint64_t digest_of(const uint8_t *data, size_t n, int strips_blanks, uint64_t once);

#endif
