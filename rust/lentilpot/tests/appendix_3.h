/* Document 001, appendix 3: the messages of a customer and what the bank sent back, each in one record; the customer's identity has the 17
 * characters of its field. For desk.c and tests/box_desk.c. */
#ifndef APPENDIX_3_H
#define APPENDIX_3_H

#include <stdint.h>

#define OWN "99910000011111111        "
#define BANK "003701234567             "
#define PARTIES BANK OWN
#define BLANKS "                                          " /* 42: fields 13 to 16 of an ESI */
#define STARTS(kind, size) kind size "120K1002PANKKILINJA 1.20SMH" OWN BANK
#define NOTICE "07:32:15 HYV\xC4KSYTTY, AVAINVAIHTO                            "

static const char esi[] = ">>ESI161120 0000KERMIT      3.01SMH" PARTIES "00941015073000001" BLANKS "4B69B6DD4F72C75B0";
static const char suo[] = ">>SUO128120 0000KERMIT      3.01SKH" PARTIES "00941015073125001S         0EC755E2853DF893";
static const char var[] = ">>VAR161120 0000KERMIT      3.01SMH" PARTIES "00941015073125001S         0EC755E2853DF893"
                          "4954F0194C2B696D91B78D377B4F70D10";
static const char esi_reply[] = STARTS(">>ESI", "237") "00941015073000001" BLANKS "FC13A419E2BBE1C512DC962135AE1515F" NOTICE;
static const char pte[] = STARTS(">>PTE", "317") "00941015073125001S         0EC755E2853DF8934954F0194C2B696D359D012A52A6FD2E"
                          "12DC962135AE1515F" NOTICE
                          "TS      0010000040000000000001384+00000000000000000000000000000000+921015073214 ";

/* The transport key of generation 0. */
static const uint64_t part1 = UINT64_C(0xF18C57209492FEB3), part2 = UINT64_C(0xC71A7502021A022F);
#define CHECK 0x028E4C
/* The check values of working key 0, which is made from it, and of the key that both replies enclose, by another DES. */
#define WORKING_CHECK 0xCA89F7
#define NEW_CHECK 0x76A468

#endif
