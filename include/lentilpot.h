/*
 * Lentilpot for a box: the receiving front end for payment files under PATU 1.22; and, for a customer's box, the builder, which makes the
 * messages round its records, and the desk, which checks what the bank sends back.
 *
 * To build, at the root of the repository, with the Rattle kit:
 *     sh scripts/staticlib edge                                          proves the library, writes target/staticlib/libedge.a
 *     cc -std=c99 -Iinclude box.c target/staticlib/libedge.a -o box      compiles and links; nothing else is needed
 * On aarch64: sh scripts/nativelib edge, and target/native/libedge.a.
 * The customer's calls (the last two sections) are in an archive of their own: sh scripts/staticlib desk_edge, target/staticlib/libdesk_edge.a.
 * A box links the archive that it calls; both may be linked together.
 *
 * A bank's table is 49,152 bytes that the box keeps (docs/FORMAT.md has every byte); a file on its way is a session of
 * lp_session_size() bytes. Every call works on the memory that it is lent and keeps none of it: no call allocates, waits,
 * reads a clock or writes anywhere else, and calls on different memory may run at the same time.
 *
 * To receive a file: lp_open; then lp_read over its bytes, handing in again what was not taken; then, once all are taken, lp_end
 * until it says finished. A call that says finished is the last one; the rest of the file is not read.
 *
 *     SAVE THE TABLE BEFORE A REPLY IS TOLD, and before an accepted batch is paid.
 *
 * Saved is: on the disk, its folder flushed too. The table holds the stamps that must not be accepted twice, and a stamp that was
 * not saved is accepted again after a crash. samples/receive.c has an order of writes that is right wherever it is cut off.
 *
 * Refusals. Every call may be refused, with one of these numbers; where several hold the lowest is given:
 *    1  the reply's room is under 317 bytes
 *    2  no table is written as these bytes
 *    3  the session is not open, closed or finished, or this is a read after an end; its day isn't the table's; or a number in
 *       it lies outside its range (docs/FORMAT.md)
 *    4  a date or time isn't real, or the day is before the table's
 *    5  the table has 32 customers already
 *    6  a customer with this identity and qualifier is there already
 *    7  there is no customer with this identity and qualifier
 *    8  the parity of a key part is even
 *    9  the check value differs
 *   10  the new transport generation isn't the next
 *   11  another argument is outside its limits
 *   12  that kind's previous key is held and its last day isn't past
 *   13  a field that was given breaks document 01's format or value rules (the calls that build, last section)
 * A refused call changes nothing: table, session and reply stay as they were, and no byte is taken.
 *
 * Arguments. Bytes are lent as a pointer and a length; nothing is read or written past the length. Memory that a call writes
 * (its pointers without const) must not overlap any other memory lent to the same call. A length of 0 goes with any pointer.
 * Names are padded with blanks: 25 bytes are an identity of 17 and a qualifier of 8, in A to Z, 0 to 9, blank and
 * % ( ) * + , - . / : ; < = >. An identity or software name isn't all blank; a qualifier may be. Dates are the number yymmdd, years
 * 1980 to 2079 (29 February 2000 is 229), times the number hhmmss. Keys, key parts and clock values have their first byte highest.
 */
#ifndef LENTILPOT_H
#define LENTILPOT_H

#include <stddef.h>
#include <stdint.h>

#ifdef __cplusplus
extern "C" {
#endif

#define LP_VERSION "1.5"       /* of these functions and constants */
#define LP_VERSION_NUMBER 105  /* the same for #if: 100 times the first number, and the second */

#define LP_TABLE_SIZE 49152  /* the bytes of a table */
#define LP_SESSION_SIZE 472  /* the bytes of a session: what lp_session_size() says */
#define LP_REPLY_ROOM 317    /* the least room for a reply, and the longest reply */
#define LP_WHO_SIZE 25       /* an identity (17) and a qualifier (8) */
#define LP_SOFTWARE_SIZE 16  /* a software name */

/* The refusals above by name. */
#define LP_SERVED 0
#define LP_REFUSED_REPLY_ROOM 1
#define LP_REFUSED_NO_TABLE 2
#define LP_REFUSED_SESSION 3
#define LP_REFUSED_DATE_OR_TIME 4
#define LP_REFUSED_TABLE_FULL 5
#define LP_REFUSED_CUSTOMER_IS_THERE 6
#define LP_REFUSED_NO_CUSTOMER 7
#define LP_REFUSED_PARITY 8
#define LP_REFUSED_CHECK_VALUE 9
#define LP_REFUSED_GENERATION 10
#define LP_REFUSED_ARGUMENT 11
#define LP_REFUSED_CHANGEOVER 12
#define LP_REFUSED_FIELD 13

/* The codes of replies. These seven are K, accepted: */
#define LP_CODE_ACCEPTED 1001
#define LP_CODE_ACCEPTED_CURRENT_KEY_ENCLOSED 1002   /* the previous working key was used */
#define LP_CODE_ACCEPTED_KEY_CHANGE_GRANTED 1003     /* the key asked for is enclosed */
#define LP_CODE_ACCEPTED_KEY_CHANGE_REFUSED 1004     /* the customer has no leave to ask for keys */
#define LP_CODE_ACCEPTED_KEY_CHANGE_TOO_OFTEN 1005   /* a changeover still runs */
#define LP_CODE_ACCEPTED_CHANGEOVER_ENDED 1036
#define LP_CODE_ACCEPTED_NO_CHANGEOVER_TO_END 1037
/* All others are E, refused: */
#define LP_CODE_FIELD_FORMAT 1010                    /* the notice names the field and shows what was received in it */
#define LP_CODE_FIELD_VALUE 1011                     /* likewise */
#define LP_CODE_VERSION_TOO_OLD 1012
#define LP_CODE_TRANSPORT_KEY_NOT_VALID 1013
#define LP_CODE_WORKING_KEY_NOT_VALID 1014
#define LP_CODE_DATE_TOO_OLD 1015
#define LP_CODE_DATE_AHEAD 1016
#define LP_CODE_ONE_TIME_KEY_USED 1017
#define LP_CODE_STAMP_USED 1018
#define LP_CODE_DIGEST_DIFFERS 1019
#define LP_CODE_CHECKSUM_DIFFERS 1020
#define LP_CODE_OTHER_RECEIVER 1021
#define LP_CODE_SUO_MISSING 1023
#define LP_CODE_VAR_MISSING 1024
#define LP_CODE_TYPE_NOT_ALLOWED 1025
#define LP_CODE_SUO_AND_VAR_DIFFER 1026              /* the notice names the field */
#define LP_CODE_ONE_TIME_KEY_PARITY 1031
#define LP_CODE_MESSAGE_TOO_SHORT 1032
#define LP_CODE_UNKNOWN_CUSTOMER 1033
#define LP_CODE_NO_ROOM 1034                         /* 64 live stamps are held, or the file is too large */
#define LP_CODE_NOT_AGREED 1035

/*
 * Where a reply's fields stand: LP_AT_ is an offset from 0, LP_WIDTH_ a number of characters. They stand alike in both kinds, ESI
 * and PTE; an ESI ends after the notice, and only a PTE has a receipt. A reply has no line end and no NUL; bytes C4 and D6 in its
 * notice are A and O with dots. The numbers are the fields of document 001, appendix 1. Codes 1010 to 1012, 1021, 1023, 1024, 1032,
 * 1033, 1035, and 1034 for a file too large, don't repeat the message: 8 is blank, 10 to 12 are zeros, 13 to 17 blank.
 */
#define LP_REPLY_ESI_SIZE 237
#define LP_REPLY_PTE_SIZE 317
#define LP_AT_KIND 0                         /*  1: >>ESI or >>PTE */
#define LP_WIDTH_KIND 5
#define LP_AT_SIZE 5                         /*  2: 237 or 317 */
#define LP_WIDTH_SIZE 3
#define LP_AT_PATU 8                         /*  3: the version of PATU, 120 */
#define LP_WIDTH_PATU 3
#define LP_AT_VERDICT 11                     /*  4: K or E */
#define LP_WIDTH_VERDICT 1
#define LP_AT_CODE 12                        /*  5: four digits, LP_CODE_... */
#define LP_WIDTH_CODE 4
#define LP_AT_SOFTWARE 16                    /*  6: the bank's software */
#define LP_WIDTH_SOFTWARE 16
#define LP_AT_METHOD 32                      /*  7: SMH */
#define LP_WIDTH_METHOD 3
#define LP_AT_RECEIVER 35                    /*  8: the customer, identity and qualifier */
#define LP_WIDTH_RECEIVER 25
#define LP_AT_SENDER 60                      /*  9: the bank, identity and qualifier */
#define LP_WIDTH_SENDER 25
#define LP_AT_TRANSPORT_GENERATION 85        /* 10 */
#define LP_WIDTH_TRANSPORT_GENERATION 1
#define LP_AT_WORKING_GENERATION 86          /* 11 */
#define LP_WIDTH_WORKING_GENERATION 1
#define LP_AT_STAMP 87                       /* 12: yymmddhhmmssnnn of the message */
#define LP_WIDTH_STAMP 15
#define LP_AT_AREA 102                       /* 13: S or A; blank in an ESI */
#define LP_WIDTH_AREA 1
#define LP_AT_SPARE 103                      /* 14: blank */
#define LP_WIDTH_SPARE 9
#define LP_AT_ONE_TIME_KEY 112               /* 15: enciphered, in hex; blank in an ESI */
#define LP_WIDTH_ONE_TIME_KEY 16
#define LP_AT_DIGEST 128                     /* 16: in hex; blank in an ESI */
#define LP_WIDTH_DIGEST 16
#define LP_AT_CHECKSUM 144                   /* 17: in hex, or blank */
#define LP_WIDTH_CHECKSUM 16
#define LP_AT_KEY_FLAG 160                   /* 18: 1 where a key is enclosed, else 0 */
#define LP_WIDTH_KEY_FLAG 1
#define LP_AT_NEW_KEY 161                    /* 19: the key enclosed, enciphered, in hex; else blank */
#define LP_WIDTH_NEW_KEY 16
#define LP_AT_NOTICE 177                     /* 20: HH:MM:SS, a blank, the code's text */
#define LP_WIDTH_NOTICE 60
#define LP_AT_RECEIPT 237                    /* 21: a PTE's alone; blank */
#define LP_WIDTH_RECEIPT 80
/* Within the notice: its text, and in the three codes that name a field where that name begins. It ends before a blank or colon. With
 * 1010 and 1011 a blank follows, and the field as it was received, in which a byte outside 20 to 7E hex is '?': lp_reply_contents. */
#define LP_AT_TEXT 186
#define LP_WIDTH_TEXT 51
#define LP_AT_NAME_1010 206
#define LP_AT_NAME_1011 205
#define LP_AT_NAME_1026 193

/* How many bytes a session takes. */
uint32_t lp_session_size(void);

/*
 * Sets up a table over table's bytes, whatever they are: settings and holidays, no customers, day 800101. Bytes past the new
 * table's total length stay.
 * bank: 25 bytes; software: 16 bytes; floor: the lowest version taken, 110 or 120; k, v: key and seed of the key maker, any;
 * holidays: yymmdd each, at most 200, strictly rising in the calendar's order.
 * Gives 0, or a refusal:
 *    4  a holiday isn't a real date
 *   11  the table isn't lent as 49,152 bytes; bank isn't 25 bytes, or software not 16, or either no name; another floor;
 *       holidays that don't rise, or more than 200
 */
uint32_t lp_set_up(uint8_t *table, size_t table_len,
                   const uint8_t *bank, size_t bank_len,
                   const uint8_t *software, size_t software_len,
                   uint32_t floor, uint64_t k, uint64_t v,
                   const uint32_t *holidays, size_t holidays_len);

/*
 * Adds a customer with a transport key and, made from it, working key 0; stores today as the table's day. lp_add_customer, below,
 * takes the arguments by name.
 * who: 25 bytes; part1, part2: the transport key's parts; check: its check value, 24 bits; generation: 0 to 9;
 * types: the data types allowed, bit k - 1 for type k, 1 to 16; agreed, leave (to ask for keys): 0 or 1;
 * length_given: 1 where the changeover's length in calendar days follows (1 to 60), 0 for 30 days (length is then not looked at).
 * Gives 0, or a refusal:
 *    2  no table is written as these bytes, or they aren't 49,152
 *    4  today isn't real or is before the table's day
 *    5  the table has 32 customers
 *    6  this identity and qualifier is there
 *    8  the parity of part1 or part2 is even
 *    9  the check value differs (as each of 2^24 or more does)
 *   11  who isn't 25 bytes or no name; generation, types, agreed, leave, length_given or length outside their limits
 */
uint32_t lp_add(uint8_t *table, size_t table_len, uint32_t today,
                const uint8_t *who, size_t who_len,
                uint64_t part1, uint64_t part2, uint32_t check, uint32_t generation,
                uint32_t types, uint32_t agreed, uint32_t leave, uint32_t length_given, uint32_t length);

/* A new customer for lp_add_customer: lp_add's arguments by name. What isn't set is to be 0; a length of 0 is 30 days. */
struct lp_customer {
    uint8_t who[LP_WHO_SIZE]; /* lp_who fills it in */
    uint64_t part1, part2;    /* the transport key's parts */
    uint32_t check;           /* its check value */
    uint32_t generation;      /* 0 to 9 */
    uint32_t types;           /* LP_TYPE(1) | LP_TYPE(3) */
    uint32_t agreed, leave;   /* 0 or 1 */
    uint32_t length;          /* a changeover's calendar days, 1 to 60, or 0 */
};

/* The bit of a data type, 1 to 16. */
#define LP_TYPE(type) (UINT32_C(1) << ((type) - 1))

/*
 * Fills in identity and qualifier, each padded with blanks to its place; a qualifier may be "". Gives 1, or 0 where one is too
 * long: who is then 25 zero bytes, which are no customer's, so that lp_add refuses them with 11, lp_enter and lp_order with 7.
 */
static inline int lp_who(uint8_t who[LP_WHO_SIZE], const char *identity, const char *qualifier) {
    size_t n = 0, m = 0;
    while (n < 18 && identity[n]) n++;
    while (m < 9 && qualifier[m]) m++;
    for (size_t i = 0; i < LP_WHO_SIZE; i++) {
        char c = ' ';
        if (i < n) c = identity[i];
        if (i >= 17 && i - 17 < m) c = qualifier[i - 17];
        who[i] = (uint8_t)(n > 17 || m > 8 ? 0 : c);
    }
    return n <= 17 && m <= 8;
}

/* Adds a customer as lp_add does, with its refusals. */
static inline uint32_t lp_add_customer(uint8_t *table, size_t table_len, uint32_t today, const struct lp_customer *c) {
    return lp_add(table, table_len, today, c->who, sizeof c->who, c->part1, c->part2, c->check, c->generation,
                  c->types, c->agreed, c->leave, c->length != 0, c->length);
}

/*
 * Enters a customer's next transport key: the current one becomes the previous one, for the customer's changeover from today;
 * stores today as the table's day. Sessions opened on an earlier day are refused (3) from then on.
 * Gives 0, or a refusal:
 *    2  no table is written as these bytes, or they aren't 49,152
 *    4  today isn't real or is before the table's day
 *    7  no such customer (who isn't 25 bytes, too)
 *    8  the parity of part1 or part2 is even
 *    9  the check value differs (as each of 2^24 or more does)
 *   10  generation isn't the one after the current one's (1 follows 0 and 9)
 *   12  a previous transport key is held and its last day isn't past
 */
uint32_t lp_enter(uint8_t *table, size_t table_len, uint32_t today,
                  const uint8_t *who, size_t who_len,
                  uint64_t part1, uint64_t part2, uint32_t check, uint32_t generation);

/*
 * Orders a new working key for a customer: the key maker makes it from clock, the current one becomes the previous one, for the
 * customer's changeover from today; stores today as the table's day.
 * Gives 0, or a refusal:
 *    2  no table is written as these bytes, or they aren't 49,152
 *    4  today isn't real or is before the table's day
 *    7  no such customer (who isn't 25 bytes, too)
 *   12  a previous working key is held and its last day isn't past
 */
uint32_t lp_order(uint8_t *table, size_t table_len, uint32_t today,
                  const uint8_t *who, size_t who_len, uint64_t clock);

/*
 * Opens a file: writes a session over session's bytes, whatever they are, and stores today as the table's day.
 * time: printed in the replies; data_type: 1 to 16, what the file's batches are; clock: for the keys made in this file.
 * Gives 0, or a refusal:
 *    2  no table is written as these bytes, or they aren't 49,152
 *    4  today or time isn't real, or today is before the table's day
 *   11  data_type isn't 1 to 16, or session isn't lp_session_size() bytes
 */
uint32_t lp_open(uint8_t *table, size_t table_len,
                 uint8_t *session, size_t session_len,
                 uint32_t today, uint32_t time, uint32_t data_type, uint64_t clock);

/*
 * Takes the file's next bytes: through the LF that settles a reply, or all of them where none is settled. The reply is written at
 * the start of reply's bytes; those past it stay. Any number of bytes may be handed in, none too.
 * Gives a number for the functions below: the bytes taken, the reply's length (0: no reply), whether the file is finished.
 * Refusals:
 *    1  reply_len is under 317
 *    2  no table is written as these bytes, or they aren't 49,152
 *    3  session isn't an open one's bytes (another length too), or an end was signalled already
 */
uint64_t lp_read(uint8_t *table, size_t table_len,
                 uint8_t *session, size_t session_len,
                 const uint8_t *input, size_t input_len,
                 uint8_t *reply, size_t reply_len);

/*
 * Signals the file's end, once all its bytes are taken: at most one reply each time, and finished with the last one or, where
 * none is due, at once. Until it says finished it is to be called again.
 * Gives a number as lp_read does, nothing being taken. Refusals:
 *    1  reply_len is under 317
 *    2  no table is written as these bytes, or they aren't 49,152
 *    3  session isn't an open one's bytes (another length too)
 */
uint64_t lp_end(uint8_t *table, size_t table_len,
                uint8_t *session, size_t session_len,
                uint8_t *reply, size_t reply_len);

/* The answer of lp_read and lp_end taken apart. */

/* Bytes of the input taken: bits 0 to 39. */
static inline size_t lp_taken(uint64_t answer) {
    return (size_t)(answer & UINT64_C(0xFFFFFFFFFF));
}

/* Bytes of the reply, 0 where there is none: bits 40 to 55. */
static inline size_t lp_reply_length(uint64_t answer) {
    return (size_t)((answer >> 40) & 0xFFFF);
}

/* 1 where the file is finished, else 0: bit 56. */
static inline int lp_finished(uint64_t answer) {
    return (int)((answer >> 56) & 1);
}

/* The refusal, 0 where the call was served: bits 57 to 63. */
static inline uint32_t lp_refusal(uint64_t answer) {
    return (uint32_t)(answer >> 57);
}

/* 1 where a reply accepts its message or batch (K), 0 where it refuses it (E). */
static inline int lp_reply_accepted(const uint8_t *reply) {
    return reply[LP_AT_VERDICT] == 'K';
}

/* A reply's code, LP_CODE_... */
static inline uint32_t lp_reply_code(const uint8_t *reply) {
    uint32_t code = 0;
    for (size_t i = 0; i < LP_WIDTH_CODE; i++) code = 10 * code + reply[LP_AT_CODE + i] - '0';
    return code;
}

/* The name of the field that a reply's notice tells: where it begins, and its length. 0 where the code names none. */
static inline size_t lp_reply_field(const uint8_t *reply, size_t *length) {
    uint32_t code = lp_reply_code(reply);
    size_t at = code == LP_CODE_FIELD_FORMAT         ? LP_AT_NAME_1010
                : code == LP_CODE_FIELD_VALUE        ? LP_AT_NAME_1011
                : code == LP_CODE_SUO_AND_VAR_DIFFER ? LP_AT_NAME_1026
                                                     : 0;
    *length = 0;
    while (at && reply[at + *length] != ' ' && reply[at + *length] != ':' && at + *length < LP_AT_RECEIPT - 1) ++*length;
    return at;
}

/* What was received in that field: where it begins in the reply, and its length without the blanks at its end. 0 where the code shows none. */
static inline size_t lp_reply_contents(const uint8_t *reply, size_t *length) {
    uint32_t code = lp_reply_code(reply);
    size_t at = lp_reply_field(reply, length) + *length + 1;
    *length = 0;
    if (code != LP_CODE_FIELD_FORMAT && code != LP_CODE_FIELD_VALUE) return 0;
    for (size_t end = at; end < LP_AT_RECEIPT; end++)
        if (reply[end] != ' ') *length = end + 1 - at;
    return at;
}

/* A refusal in a few words. */
static inline const char *lp_refusal_words(uint32_t refusal) {
    switch (refusal) {
    case LP_SERVED: return "served";
    case LP_REFUSED_REPLY_ROOM: return "the room for a reply is too small";
    case LP_REFUSED_NO_TABLE: return "no table is written as these bytes";
    case LP_REFUSED_SESSION: return "the session is not open, or a number in it is out of range";
    case LP_REFUSED_DATE_OR_TIME: return "a date or time isn't real, or the day is before the table's";
    case LP_REFUSED_TABLE_FULL: return "the table has 32 customers already";
    case LP_REFUSED_CUSTOMER_IS_THERE: return "a customer with this identity and qualifier is there already";
    case LP_REFUSED_NO_CUSTOMER: return "there is no customer with this identity and qualifier";
    case LP_REFUSED_PARITY: return "the parity of a key part is even";
    case LP_REFUSED_CHECK_VALUE: return "the check value differs";
    case LP_REFUSED_GENERATION: return "the new transport generation isn't the next";
    case LP_REFUSED_ARGUMENT: return "an argument is outside its limits";
    case LP_REFUSED_CHANGEOVER: return "the changeover from the previous key is not past";
    case LP_REFUSED_FIELD: return "a field breaks the rules for its format or value";
    default: return "no refusal has this number";
    }
}

/*
 * ---- The desk: on the customer's side, what the bank sends back is checked (libdesk_edge.a).
 *
 * A desk is 88 bytes that the customer's box keeps: for one customer at one bank its transport and working keys, of each kind the current
 * one and perhaps the one before it. What was sent is 100 bytes, made from the messages themselves, whatever software wrote them.
 * docs/FORMAT.md has every byte of both.
 *
 * To check a file's replies: lp_sent_of for its ESI and for each SUO with its VAR; then lp_check_esi for the bank's ESI and lp_check_pte
 * for each PTE, in the order in which they came. Which reply goes with which message is the box's business: PTEs come in the order of the
 * batches, but one with 1023 (records outside a batch) belongs to none. samples/desk.c does it for whole files.
 *
 *     SAVE THE DESK'S BYTES BEFORE THE REPLY IS THROWN AWAY. An enclosed key is kept in them, and once the changeover is past the bank takes
 *     no other.
 *
 * A finding says whether the reply is the bank's answer to this message. The bank's own word, K or E with its code, is told apart from it
 * and also where the desk refuses: an E that passes is a refusal by the bank. A batch is accepted only if its PTE says K and passes.
 *
 * What no desk can see. Fields 18 to 21 lie outside the checksum: of 20 and 21 nothing is checked at all, and a key enclosed by a forger
 * passes its parity once in 256 (each of its eight bytes is odd by chance, 2^-8) and is kept. So compare the new key's check value with
 * the bank by telephone after a change: lp_held_values tells it. An enclosed key that was taken away isn't missed before replies under it
 * get 3020. A reply without a checksum never passes, for nobody can see who wrote it: those that don't repeat the message (above, at
 * LP_AT_) have none, nor have those to a message whose working key the bank doesn't hold.
 */
#define LP_HELD_SIZE 88   /* the bytes of a desk: what lp_held_size() says */
#define LP_SENT_SIZE 100  /* the bytes of what was sent: what lp_sent_size() says */

/* The numbers that a check tells beside its finding. */
#define LP_WORDS 3        /* how many */
#define LP_WORD_FIELD 0   /* the field at fault: ten times its number and the part, 170 for 17 and 81 for 8.1; 0 for none: lp_field_name */
#define LP_WORD_LETTER 1  /* the bank's letter, 'K' or 'E'; 0 where it can't be read */
#define LP_WORD_CODE 2    /* the bank's code, LP_CODE_... ; 0 where it can't be read */

/* The numbers that lp_held_values tells: of each kind the current key's generation, 0 to 9, and its check value, 24 bits. */
#define LP_VALUES 4                      /* how many */
#define LP_VALUE_TRANSPORT_GENERATION 0
#define LP_VALUE_TRANSPORT_CHECK 1       /* in six hex digits, "%06X", as the bank's 'lentilpot show' prints it */
#define LP_VALUE_WORKING_GENERATION 2
#define LP_VALUE_WORKING_CHECK 3         /* likewise */

/* The findings: document 001's codes of the customer's side. */
#define LP_PASSES 0
#define LP_FINDING_FIELD_FORMAT 3010           /* names the field; a blank checksum is this on field 17, or on a lower one */
#define LP_FINDING_FIELD_VALUE 3011            /* names the field; on field 10 or 11: not the key generation that was sent */
#define LP_FINDING_CHECKSUM_DIFFERS 3020       /* or the desk holds no working key of that generation */
#define LP_FINDING_OTHER_RECEIVER 3021         /* identity or qualifier isn't the desk's own */
#define LP_FINDING_STAMP_DIFFERS 3022          /* an ESI's: not the stamp that was sent */
#define LP_FINDING_SUO_AND_PTE_DIFFER 3027     /* names the field */
#define LP_FINDING_DIGEST_DIFFERS 3028         /* VAR and PTE */
#define LP_FINDING_PTE_MISSING 3029            /* it never came */
#define LP_FINDING_KEY_PARITY 3030             /* the enclosed key's; or the desk holds no transport key of that generation */
#define LP_FINDING_REPLY_TOO_SHORT 3032        /* under 237 characters, a PTE under 317 */

/* How many bytes a desk takes, and what was sent. */
uint32_t lp_held_size(void);
uint32_t lp_sent_size(void);

/*
 * Opens a desk over held's bytes, whatever they are, with its first transport key and, made from it, working key 0.
 * own: the customer, bank: the bank, 25 bytes each (lp_who); part1, part2: the transport key's parts; check: its check value, 24 bits;
 * generation: 0 to 9.
 * Gives 0, or a refusal, the lowest that holds:
 *    8  the parity of part1 or part2 is even
 *    9  the check value differs (as each of 2^24 or more does)
 *   11  held isn't lent as 88 bytes; own or bank isn't 25 bytes or no name; generation above 9
 */
uint32_t lp_held_open(uint8_t *held, size_t held_len,
                      const uint8_t *own, size_t own_len,
                      const uint8_t *bank, size_t bank_len,
                      uint64_t part1, uint64_t part2, uint32_t check, uint32_t generation);

/*
 * Enters the next transport key: the current one becomes the one before it; the working keys stay.
 * Gives 0, or a refusal, the lowest that holds:
 *    8  the parity of part1 or part2 is even
 *    9  the check value differs (as each of 2^24 or more does)
 *   10  generation isn't the one after the current one's (1 follows 0 and 9)
 *   11  no desk is written as these bytes, or they aren't 88: 10 is then not looked for
 */
uint32_t lp_held_enter(uint8_t *held, size_t held_len,
                       uint64_t part1, uint64_t part2, uint32_t check, uint32_t generation);

/*
 * Tells the current keys by their check values, for the comparison with the bank by telephone: after an opening, an entering, and a reply
 * that encloses a key. values: LP_VALUES numbers, which are written. The desk stays as it is.
 * Gives 0, or the refusal
 *   11  no desk is written as these bytes, or they aren't 88; values isn't 4 numbers. Nothing is written then
 */
uint32_t lp_held_values(const uint8_t *held, size_t held_len,
                        uint32_t *values, size_t values_len);

/*
 * Writes what was sent over sent's bytes, whatever they are: of an ESI, given as first and as closing alike, or of a SUO (first) and its
 * VAR (closing). A message is its characters alone, joined where it was folded into several records, without line ends.
 * Parties, stamp, field 13 and one-time key are first's, key generations and digest closing's; what they hold is not judged.
 * Gives 0, or a refusal:
 *   11  first doesn't begin with >>ESI or >>SUO, or isn't 161 to 500 characters long (a SUO 128 to 500); closing isn't the same ESI, or
 *       doesn't begin with >>VAR, or isn't 161 to 500 long; sent isn't lent as 100 bytes
 */
uint32_t lp_sent_of(const uint8_t *first, size_t first_len,
                    const uint8_t *closing, size_t closing_len,
                    uint8_t *sent, size_t sent_len);

/*
 * Checks a bank's ESI against the ESI that was sent. reply: its characters alone, without a line end and without what lies behind it in a
 * larger room; word: LP_WORDS numbers, which are written.
 * An enclosed key is kept exactly if all pass: it becomes the current working key, of the generation after field 11's, and the key that was
 * used stays beside it. Nothing else changes the desk. The same reply may be checked again.
 * Gives LP_PASSES where all pass, else the first of these findings that holds, in this order:
 *   3032  shorter than 237
 *   3010  a field's format, the lowest field first: field 1 isn't >>ESI; 2, 3, 5, 10 to 12 aren't digits; more than blanks lies past the
 *         237; 1 to 16 have other characters than document 01's; 17, and 19 where 18 is 1, isn't 16 hex digits
 *   3011  a field's value, the lowest first: length 237, version 110 or 120, 4 K or E, 6 not blank, method SMH, a real date and time, 13 to
 *         16 blank, 18 0 or 1, 19 blank where 18 is 0
 *   3021  the receiver isn't the desk's own identity and qualifier
 *   3022  the stamp isn't the one that was sent
 *   3011  field 10, then 11: another key generation than was sent
 *   3020  the checksum differs, or the desk holds no working key of that generation
 *   3030  a key is enclosed whose parity is even, or the desk holds no transport key of that generation
 * or the refusal
 *   11  no desk is written as these bytes, or they aren't 88; sent isn't 100 bytes; word isn't 3 numbers. Nothing is written then
 */
uint32_t lp_check_esi(uint8_t *held, size_t held_len,
                      const uint8_t *sent, size_t sent_len,
                      const uint8_t *reply, size_t reply_len,
                      uint32_t *word, size_t word_len);

/*
 * Checks a PTE against the SUO and VAR that were sent, as lp_check_esi does an ESI: the same word, the same keeping of an enclosed key, the
 * same refusal. A reply of no bytes is a PTE that never came.
 * Gives LP_PASSES where all pass, else the first of these findings that holds, in this order:
 *   3029  no bytes
 *   3032  shorter than 317
 *   3010  as of an ESI: field 1 isn't >>PTE; more than blanks lies past the 317; 15 and 16 too are 16 hex digits
 *   3011  as of an ESI: length 317; 13 S or A; 14 alone blank
 *   3021  the receiver isn't the desk's own identity and qualifier
 *   3027  the first unequal of: 8 and the SUO's sender, 9 and its receiver, 12, 13, 15
 *   3028  the digest isn't the VAR's
 *   3011, 3020, 3030, or the refusal 11, as of an ESI; the generations are the VAR's
 */
uint32_t lp_check_pte(uint8_t *held, size_t held_len,
                      const uint8_t *sent, size_t sent_len,
                      const uint8_t *reply, size_t reply_len,
                      uint32_t *word, size_t word_len);

/* What a check gives in a few words; a refusal as lp_refusal_words. */
static inline const char *lp_finding_words(uint32_t finding) {
    switch (finding) {
    case LP_PASSES: return "passes";
    case LP_FINDING_FIELD_FORMAT: return "a field's format is wrong";
    case LP_FINDING_FIELD_VALUE: return "a field's value is wrong";
    case LP_FINDING_CHECKSUM_DIFFERS: return "the checksum differs";
    case LP_FINDING_OTHER_RECEIVER: return "the receiver is another customer";
    case LP_FINDING_STAMP_DIFFERS: return "the stamp isn't the one that was sent";
    case LP_FINDING_SUO_AND_PTE_DIFFER: return "SUO and PTE differ in a field";
    case LP_FINDING_DIGEST_DIFFERS: return "the digest isn't the one that was sent";
    case LP_FINDING_PTE_MISSING: return "no PTE came";
    case LP_FINDING_KEY_PARITY: return "the enclosed key's parity is even";
    case LP_FINDING_REPLY_TOO_SHORT: return "the reply is too short";
    default: return lp_refusal_words(finding);
    }
}

/* The name in document 001 of a field as LP_WORD_FIELD tells it, in UTF-8; "" where there is none. */
static inline const char *lp_field_name(uint32_t field) {
    switch (field) {
    case 10: return "SANOMATUNNUS";
    case 20: return "SANOMAPITUUS";
    case 30: return "VERSIO";
    case 40: return "ONNISTUMISKOODI";
    case 50: return "ILMOITUSKOODI";
    case 60: return "OHJELMISTO";
    case 70: return "MENETELM\xC3\x84";
    case 80: return "VASTAANOTTAJA";
    case 81: return "VAST.TUNNUS";
    case 82: return "VAST.TARKENNE";
    case 90: return "L\xC3\x84HETT\xC3\x84J\xC3\x84";
    case 91: return "L\xC3\x84H.TUNNUS";
    case 92: return "L\xC3\x84H.TARKENNE";
    case 100: return "SIIRTOAVAINNO";
    case 110: return "K\xC3\x84YTT\xC3\x96" "AVAINNO";
    case 120: return "AIKALEIMA";
    case 121: return "P\xC3\x84IV\xC3\x84YS";
    case 122: return "KELLONAIKA";
    case 123: return "LEIMANUMERO";
    case 130: return "SUOJAUSALUE";
    case 140: return "VARALLA";
    case 150: return "KERTA-AVAIN";
    case 160: return "TIIVISTE";
    case 170: return "TARKISTE";
    case 180: return "AVAINVAIHTO";
    case 190: return "UUSIAVAIN";
    case 200: return "ILMOITUS";
    case 210: return "KUITTAUS";
    default: return "";
    }
}

/*
 * ---- The builder: on the customer's side, ESI, SUO and VAR are made round its records (libdesk_edge.a, with the desk).
 *
 * An ESI opens a file; a SUO and a VAR stand round the records of each batch. They are of version 120, under the desk's current keys.
 *
 * A file is an ESI; then, for each batch, its SUO, its records and its VAR; every message and record followed by LF, or CR LF. To make one:
 * lp_build_esi; for each batch lp_build_suo, whose text goes out before the data is seen, lp_add_record for each record, lp_build_var. Each
 * gives a room of characters, to be written as one record, and what was sent, to be kept until the bank's reply is checked with it.
 *
 * What is built so is accepted by the bank's box, and the reply passes the desk, if: the customer is known to the bank and has agreed on
 * PATU; the stamp is fresh (the bank has taken no message with it from this customer), not more than five banking days old and not after
 * the day on which the bank opens the file; the bank holds fewer than 64 live stamps of the customer; the desk's bank is this bank; both
 * sides have the same current keys; and for a batch: it comes after the ESI, the file's data type is allowed, its one-time key was not
 * used, its records hold no LF, don't end with CR and don't begin with >>ESI, >>SUO or >>VAR, at least one character is left after
 * stripping; and the file is within 4,294,967,295 bytes. A key that is asked for (request '1') is current at the bank from the reply on:
 * ask in the last message of a file.
 *
 *     SAVE THE KEY MAKER'S NUMBERS AND WHAT WAS SENT BEFORE THE FILE IS SENT. A maker that stands where it stood makes the same one-time keys
 *     again at the same clock value, and the bank refuses them (E 1017); without what was sent no reply can be checked.
 */
#define LP_BATCH_SIZE 168     /* the bytes of a batch on its way: what lp_batch_size() says */
#define LP_ESI_SIZE 161       /* the characters of an ESI and of a VAR */
#define LP_VAR_SIZE 161
#define LP_SUO_SIZE 128       /* and of a SUO */
#define LP_STAMP_SIZE 15      /* yymmddhhmmss and a number of three digits */
#define LP_METHOD_SIZE 3
#define LP_SKH "SKH"          /* blanks at the end of a record aren't in the digest */
#define LP_SKE "SKE"          /* they are */
#define LP_AREA_TRANSFER 'S'  /* field 13 of document 001: what is protected is a transfer, */
#define LP_AREA_DATA 'A'      /* or a batch of data */
#define LP_REQUEST_NONE '0'   /* nothing is asked for */
#define LP_REQUEST_KEY '1'    /* a new working key, please */
#define LP_REQUEST_END '2'    /* end the changeover, please */
#define LP_MAKER_SIZE 2       /* the numbers of a key maker: K, which stays, and V, which moves on */

/* How many bytes a batch on its way takes. */
uint32_t lp_batch_size(void);

/*
 * Builds an ESI. software: its 16 characters; stamp: 15; request: a character, LP_REQUEST_... ; text: room for the ESI's 161 characters;
 * sent: room for what was sent, 100 bytes, as lp_sent_of would give it. Both are written.
 * Gives 0, or a refusal, the lowest that holds:
 *   11  no desk is written as held's bytes; software isn't 16 bytes, stamp not 15; request is above 255; text isn't 161 bytes, sent not 100
 *   13  a field breaks document 01's rules: another character than those of names; a software name all blank; a stamp that isn't digits, or
 *       its date or time not real; a request other than '0', '1', '2'
 * A refused call writes nothing.
 */
uint32_t lp_build_esi(const uint8_t *held, size_t held_len,
                      const uint8_t *software, size_t software_len,
                      const uint8_t *stamp, size_t stamp_len,
                      uint32_t request,
                      uint8_t *text, size_t text_len,
                      uint8_t *sent, size_t sent_len);

/*
 * Builds a SUO, and begins a batch. maker: the key maker's two numbers, K and V, the bureau's own: never the bank's, never a copy's (document
 * 001, 5.3); the one-time key is made from them and clock, and V moves on. method: LP_SKH or LP_SKE, 3 characters; area: a character,
 * LP_AREA_... ; text: room for the SUO's 128 characters; batch: room for the batch, 168 bytes. The three are written.
 * The batch holds the one-time key and the working key: keep it where nobody else reads it, and no longer than the batch is on its way.
 * Gives 0, or a refusal, the lowest that holds:
 *   11  no desk is written as held's bytes; maker isn't 2 numbers; software isn't 16 bytes, method not 3, stamp not 15; area is above 255; text
 *       isn't 128 bytes, batch not 168
 *   13  a field breaks document 01's rules, as of an ESI; a method other than SKH and SKE; an area other than 'S' and 'A'
 * A refused call writes nothing, and the maker stands where it stood.
 */
uint32_t lp_build_suo(const uint8_t *held, size_t held_len,
                      uint64_t *maker, size_t maker_len,
                      uint64_t clock,
                      const uint8_t *software, size_t software_len,
                      const uint8_t *method, size_t method_len,
                      const uint8_t *stamp, size_t stamp_len,
                      uint32_t area,
                      uint8_t *text, size_t text_len,
                      uint8_t *batch, size_t batch_len);

/*
 * Adds one record to a batch: its characters, whole, without its line end. Any bytes may be given; which of them the bank takes as data
 * stands above.
 * Gives 0, or the refusal
 *   11  no batch is written as these bytes, or they aren't 168. Nothing is written then
 */
uint32_t lp_add_record(uint8_t *batch, size_t batch_len,
                       const uint8_t *record, size_t record_len);

/*
 * Builds the VAR that closes a batch, under the working key that was current when its SUO was built. The batch stays as it is. text: room for
 * the VAR's 161 characters, sent: room for what was sent, of SUO and VAR; both are written.
 * Gives 0, or a refusal, the lowest that holds:
 *   11  no batch is written as these bytes; request is above 255; text isn't 161 bytes, sent not 100
 *   13  a request other than '0', '1', '2'
 * A refused call writes nothing, and the batch can still be closed.
 */
uint32_t lp_build_var(const uint8_t *batch, size_t batch_len,
                      uint32_t request,
                      uint8_t *text, size_t text_len,
                      uint8_t *sent, size_t sent_len);

#ifdef __cplusplus
}
#endif

#endif
