/*
 * A bureau's desk: keeps a customer's keys at one bank in HELD, and checks what that bank sends back.
 *     desk open  HELD IDENTITY QUALIFIER BANK BANKQUALIFIER CHECK GENERATION     makes HELD, with the first transport key
 *     desk enter HELD CHECK GENERATION                                           enters the next transport key
 *     desk check HELD FILE REPLIES                                               checks the replies to a file
 *     desk show  HELD                                                            lists the current keys' check values
 * open and enter read the key's two parts from standard input, 16 hex digits each on a line of its own ('stty -echo' hides what is typed);
 * CHECK is 6 hex digits, GENERATION 0 to 9, a blank qualifier "". FILE is the file as it was sent, REPLIES what came back, each reply a line.
 * check lists for each reply the bank's word, the desk's finding and the message that it answers; then the messages without a reply:
 *     K 1001: passes (ESI, 941017073000001)
 * Check values are compared with the bank by telephone after every change of keys: open, enter and show list them, check tells on standard
 * error that of a key that was enclosed. show changes nothing and may run at any time.
 * Exit status 0: served, and every message has a reply that is K and passes; 1: refused, or it isn't so; 2: trouble. Standard error says why.
 *
 * Which reply goes with which message: the first is the ESI's. One with 1023 (records outside a batch) answers none. A PTE that has the stamp
 * of a batch is that batch's; another, which doesn't repeat its message, is that of the next batch in the file's order.
 *
 * HELD.new is made before HELD is read, and only one run can make it. It gets the desk with the key that was enclosed, is flushed and takes
 * the name HELD in one step; then the findings are listed. While HELD.new is there HELD is as it was. Replies may be checked again.
 */
#define _POSIX_C_SOURCE 200809L
#include "lentilpot.h"
#include <errno.h>
#include <fcntl.h>
#include <libgen.h>
#include <signal.h>
#include <stdio.h>
#include <stdlib.h>
#include <string.h>
#include <sys/stat.h>
#include <unistd.h>

enum { LONGEST = 500, ESI_SIZE = 161, SUO_SIZE = 128, VAR_SIZE = 161, STAMP = 15 };
/* What was sent: an ESI or a batch. Where its messages aren't whole nothing can be compared with them. */
struct sent {
    uint8_t bytes[LP_SENT_SIZE];
    char stamp[STAMP + 1];
    int is_whole, is_answered;
};
static uint8_t held[LP_HELD_SIZE];
static const char *held_name = "";
static char next_name[4200];
static int next = -1;       /* HELD.new */
static struct sent *sents;  /* the ESI, then the batches */
static size_t count, awaited = 1;
static char *line;          /* the record that was read, without its line end */
static size_t room, length; /* of line */
static const char no_desk[] = "no desk is written in it: put back a copy, or open a desk under another name";

static void stop(int status, const char *what, const char *why) {
    fprintf(stderr, "desk: %s: %s\n", what, why);
    if (next >= 0) unlink(next_name);
    exit(status);
}

/* ---- HELD */

/* Reads HELD. A link would be left with the old keys. */
static struct stat read_held(void) {
    static const char expected[] = "expected a desk: a file of 88 bytes with this one name, and no link. 'desk open' makes one; else put back a copy";
    struct stat is;
    if (lstat(held_name, &is)) stop(2, held_name, errno == ENOENT ? expected : strerror(errno));
    FILE *f = S_ISREG(is.st_mode) && is.st_nlink == 1 && is.st_size == LP_HELD_SIZE ? fopen(held_name, "rb") : NULL;
    if (!f || fread(held, 1, sizeof held, f) != sizeof held) stop(2, held_name, expected);
    fclose(f);
    return is;
}

/* Makes HELD.new, and reads HELD unless it is a new one. */
static struct stat take_held(int is_new) {
    struct stat none = {0};
    strcat(strcpy(next_name, held_name), ".new");
    next = open(next_name, O_WRONLY | O_CREAT | O_EXCL, 0600);
    if (next < 0 && errno == EEXIST)
        stop(2, next_name, "is there: another run has this desk, or was cut off and left HELD as it was. If none runs, remove it and try again");
    if (next < 0) stop(2, next_name, strerror(errno));
    if (!is_new) return read_held();
    if (!lstat(held_name, &none)) stop(2, held_name, "is there, and a desk's keys are never replaced: name another HELD");
    return none;
}

/* The desk into HELD.new, which takes the name; a new one is for its owner alone, for it holds keys. */
static void keep_held(const struct stat *old) {
    char folder_name[4096];
    if (old->st_nlink && !fchown(next, old->st_uid, old->st_gid) && fchmod(next, old->st_mode & 0777)) stop(2, next_name, strerror(errno));
    if (write(next, held, sizeof held) != sizeof held || fsync(next) || rename(next_name, held_name)) stop(2, next_name, strerror(errno));
    next = -1;
    int folder = open(dirname(strcpy(folder_name, held_name)), O_RDONLY | O_DIRECTORY);
    if (folder < 0 || fsync(folder)) stop(2, held_name, "has the desk, but its folder can't be flushed: type 'sync'");
    close(folder);
}

/* ---- the check values, which are compared by telephone */

static void tell_value(FILE *out, const char *kind, int generation, int check) {
    uint32_t values[LP_VALUES];
    if (lp_held_values(held, sizeof held, values, LP_VALUES)) stop(2, held_name, no_desk);
    fprintf(out, "%sgeneration %u check value %06X", kind, (unsigned)values[generation], (unsigned)values[check]);
}

/* The words are those of the bank's 'lentilpot show'. */
static int list_values(const char *trouble) {
    tell_value(stdout, "transport  ", LP_VALUE_TRANSPORT_GENERATION, LP_VALUE_TRANSPORT_CHECK);
    tell_value(stdout, "\nworking    ", LP_VALUE_WORKING_GENERATION, LP_VALUE_WORKING_CHECK);
    if (puts("") < 0 || fflush(stdout) || ferror(stdout)) stop(2, "can't list the check values", trouble);
    return 0;
}

/* ---- the keys' words */

static uint64_t number(const char *word, size_t width, int base, const char *expected) {
    if (strlen(word) != width || strspn(word, base == 16 ? "0123456789ABCDEF" : "0123456789") != width) stop(2, "expected", expected);
    return strtoull(word, NULL, base);
}

static uint64_t part(const char *name) {
    char word[64];
    if (isatty(0)) fprintf(stderr, "%s, 16 hex digits: ", name);
    if (!fgets(word, sizeof word, stdin)) *word = 0;
    word[strcspn(word, "\r\n")] = 0;
    return number(word, 16, 16, "two key parts on standard input, 16 hex digits 0-9 A-F each, on a line of its own");
}

static void who(uint8_t out[LP_WHO_SIZE], const char *identity, const char *qualifier) {
    if (!lp_who(out, identity, qualifier)) stop(2, identity, "expected an identity of up to 17 characters, and a qualifier of up to 8");
}

static void refused(uint32_t refusal, int is_new) {
    char what[32];
    snprintf(what, sizeof what, "refused %u", (unsigned)refusal);
    if (refusal != LP_REFUSED_ARGUMENT) stop(1, what, lp_refusal_words(refusal));
    if (is_new) stop(1, what, "expected identities that aren't blank, all in A-Z 0-9 blank % ( ) * + , - . / : ; < = >");
    stop(2, held_name, no_desk);
}

static int change(int argc, char **argv) {
    int is_new = argc == 9;
    uint8_t own[LP_WHO_SIZE], bank[LP_WHO_SIZE];
    uint32_t check = (uint32_t)number(argv[argc - 2], 6, 16, "CHECK, 6 hex digits 0-9 A-F");
    uint32_t generation = (uint32_t)number(argv[argc - 1], 1, 10, "GENERATION, one digit");
    if (is_new) who(own, argv[3], argv[4]), who(bank, argv[5], argv[6]);
    uint64_t part1 = part("PART1"), part2 = part("PART2");
    struct stat old = take_held(is_new);
    uint32_t refusal = is_new ? lp_held_open(held, sizeof held, own, sizeof own, bank, sizeof bank, part1, part2, check, generation)
                              : lp_held_enter(held, sizeof held, part1, part2, check, generation);
    if (refusal) refused(refusal, is_new);
    keep_held(&old);
    puts("ok");
    return list_values("the desk is saved; 'desk show' lists them again");
}

/* ---- the file as it was sent */

static int record(FILE *f) {
    ssize_t n = getline(&line, &room, f);
    if (n < 0) return 0;
    if (n && line[n - 1] == '\n' && --n && line[n - 1] == '\r') n--;
    length = (size_t)n;
    return 1;
}

static int begins(const char *kind) {
    return length >= 5 && !memcmp(line, kind, 5);
}

/* A message takes records until its stated length is reached. Gives how many characters it has; 0 where it states a length that it can't
 * have, or the file ends before: it isn't whole. */
static size_t message(FILE *f, size_t least, uint8_t *out) {
    size_t size = 0, have = 0;
    if (length < 11) return 0;
    for (int i = 5; i < 8; i++) {
        if (line[i] < '0' || line[i] > '9') return 0;
        size = 10 * size + (size_t)(line[i] - '0');
    }
    if (size < least || size > LONGEST) return 0;
    for (;;) {
        size_t n = length < size - have ? length : size - have;
        memcpy(out + have, line, n);
        if ((have += n) == size) return size;
        if (!record(f)) return 0;
    }
}

static void add(const uint8_t *first, size_t first_len, const uint8_t *closing, size_t closing_len) {
    /* twice the room where the count is a power of two */
    if (!(count & (count - 1)) && !(sents = realloc(sents, (count ? 2 * count : 1) * sizeof *sents))) stop(2, "FILE", "too many batches for the memory");
    struct sent *s = memset(&sents[count++], 0, sizeof *s);
    s->is_whole = !lp_sent_of(first, first_len, closing, closing_len, s->bytes, sizeof s->bytes);
    for (int i = 0; i < STAMP && s->is_whole; i++)
        s->stamp[i] = (char)(first[LP_AT_STAMP + i] > ' ' && first[LP_AT_STAMP + i] < 127 ? first[LP_AT_STAMP + i] : '?');
}

/* The ESI, then each batch from its SUO to its VAR; a SUO that meets another one, a later ESI or the end has no VAR. */
static void walk(FILE *f, const char *name) {
    uint8_t first[LONGEST], closing[LONGEST];
    size_t n = 0;
    int is_open = 0, is_later = 0;
    if (!record(f) || !begins(">>ESI")) stop(2, name, "expected the file as it was sent, which begins with an ESI (>>ESI)");
    n = message(f, ESI_SIZE, first), add(first, n, first, n);
    while (record(f) && !(is_later = begins(">>ESI"))) {
        if (begins(">>SUO")) {
            if (is_open) add(first, n, closing, 0);
            n = message(f, SUO_SIZE, first), is_open = 1;
        } else if (is_open && begins(">>VAR")) {
            size_t m = message(f, VAR_SIZE, closing);
            add(first, n, closing, m), is_open = 0;
        }
    }
    if (is_open) add(first, n, closing, 0);
    if (is_later) fprintf(stderr, "desk: %s: a second ESI stands in it, and the bank reads nothing after that: send it as two files\n", name);
    if (ferror(f)) stop(2, name, "can't be read");
}

/* ---- the replies */

/* The message that the reply in line answers, or NULL. */
static struct sent *answered(int is_first) {
    if (begins(">>ESI") || (is_first && !begins(">>PTE"))) return sents[0].is_answered ? NULL : &sents[0];
    if (length >= LP_AT_SOFTWARE && !memcmp(line + LP_AT_VERDICT, "E1023", 5)) return NULL;
    for (size_t i = 1; i < count && length >= LP_AT_STAMP + STAMP; i++) {
        size_t at = (awaited + i - 2) % (count - 1) + 1; /* from the awaited one on, and round */
        if (sents[at].is_whole && !memcmp(line + LP_AT_STAMP, sents[at].stamp, STAMP)) return &sents[at];
    }
    return awaited < count ? &sents[awaited] : NULL;
}

static void tell_place(FILE *out, const struct sent *s) {
    const char *stamp = s->is_whole ? s->stamp : "no stamp";
    if (s == sents) fprintf(out, " (ESI, %s)\n", stamp);
    else fprintf(out, " (batch %zu, %s)\n", (size_t)(s - sents), stamp);
}

static void tell_finding(FILE *out, uint32_t found, uint32_t field) {
    if (found) fprintf(out, "%u: ", (unsigned)found);
    fputs(lp_finding_words(found), out);
    if (field) fprintf(out, ": field %u", (unsigned)field / 10);
    if (field % 10) fprintf(out, ".%u", (unsigned)field % 10);
    if (field) fprintf(out, ", %s", lp_field_name(field));
}

/* Checks the reply in line, or none, against what it answers; gives whether all is well: K, and it passes. */
static int check(FILE *out, struct sent *s, int is_esi, int is_there, int *is_enclosed) {
    static const uint8_t nothing[LP_SENT_SIZE];
    uint32_t word[LP_WORDS];
    const uint8_t *was = s ? s->bytes : nothing;
    size_t n = is_there ? length : 0;
    uint32_t found = is_esi ? lp_check_esi(held, sizeof held, was, LP_SENT_SIZE, (const uint8_t *)line, n, word, LP_WORDS)
                            : lp_check_pte(held, sizeof held, was, LP_SENT_SIZE, (const uint8_t *)line, n, word, LP_WORDS);
    if (found == LP_REFUSED_ARGUMENT) stop(2, held_name, no_desk);
    if (!is_there) fputs("no reply: ", out);
    else if (word[LP_WORD_LETTER] && word[LP_WORD_CODE]) fprintf(out, "%c %04u: ", (int)word[LP_WORD_LETTER], (unsigned)word[LP_WORD_CODE]);
    else fputs("no word: ", out);
    if (!s) {
        fputs("answers no message of FILE\n", out);
        return 0;
    }
    if (s->is_whole) tell_finding(out, found, word[LP_WORD_FIELD]);
    else fputs("not checked, for FILE has no whole message here", out);
    int is_well = s->is_whole && found == LP_PASSES, is_accepted = word[LP_WORD_LETTER] == 'K';
    if (is_well && !is_accepted) fputs(", refused by the bank", out);
    if (is_well && line[LP_AT_KEY_FLAG] == '1') fputs(", a key is enclosed", out), *is_enclosed = 1;
    tell_place(out, s);
    s->is_answered = 1;
    if (s != sents) awaited = (size_t)(s - sents) + 1;
    return is_well && is_accepted;
}

/* Checks every reply; the listing is kept until the desk is saved. Gives the exit status. */
static int check_replies(FILE *f, const char *name, FILE *out, int *is_enclosed) {
    int status = 0, is_first = 1;
    while (record(f)) {
        if (!length) continue; /* an empty line is no reply */
        struct sent *s = answered(is_first);
        int is_esi = s ? s == sents : begins(">>ESI");
        if (!check(out, s, is_esi, 1, is_enclosed)) status = 1;
        is_first = 0;
    }
    if (ferror(f)) stop(2, name, "can't be read");
    for (size_t i = 0; i < count; i++)
        if (!sents[i].is_answered) status = 1, check(out, &sents[i], i == 0, 0, is_enclosed);
    return status;
}

static int check_file(char **argv) {
    char *listing = NULL;
    size_t listing_size = 0;
    uint8_t before[LP_HELD_SIZE];
    int is_enclosed = 0;
    FILE *file = fopen(argv[3], "rb");
    if (!file) stop(2, argv[3], strerror(errno));
    FILE *replies = fopen(argv[4], "rb");
    if (!replies) stop(2, argv[4], strerror(errno));
    struct stat old = take_held(0);
    memcpy(before, held, sizeof held);
    walk(file, argv[3]);
    FILE *out = open_memstream(&listing, &listing_size);
    if (!out) stop(2, "the listing", strerror(errno));
    int status = check_replies(replies, argv[4], out, &is_enclosed);
    if (fclose(out)) stop(2, "the listing", strerror(errno));
    if (memcmp(before, held, sizeof held)) keep_held(&old);
    else unlink(next_name), next = -1;
    if (fwrite(listing, 1, listing_size, stdout) != listing_size || fflush(stdout))
        stop(2, "can't list the findings", "the desk is saved; check REPLIES again");
    if (!is_enclosed) return status; /* else the telephone, for field 19 lies outside the checksum */
    tell_value(stderr, "desk: the enclosed working key is kept: ", LP_VALUE_WORKING_GENERATION, LP_VALUE_WORKING_CHECK);
    fputs(". Compare this with the bank by telephone before you use the key\n", stderr);
    return status;
}

int main(int argc, char **argv) {
    /* With one of them closed HELD.new would get its number, and the listing would go into it. */
    for (int fd = 0; fd < 3; fd++)
        if (fcntl(fd, F_GETFD) < 0) stop(2, "standard input, output and error", "expected to be open");
    signal(SIGPIPE, SIG_IGN); /* a reader that left is told, like a full disk */
    if (argc > 2 && (!*(held_name = argv[2]) || strlen(held_name) > 4000)) stop(2, "HELD", "expected a file's name, of at most 4,000 bytes");
    if (argc == 9 && !strcmp(argv[1], "open")) return change(argc, argv);
    if (argc == 5 && !strcmp(argv[1], "enter")) return change(argc, argv);
    if (argc == 5 && !strcmp(argv[1], "check")) return check_file(argv);
    if (argc == 3 && !strcmp(argv[1], "show")) return read_held(), list_values("standard output is full or closed");
    stop(2, "expected",
         "open HELD IDENTITY QUALIFIER BANK BANKQUALIFIER CHECK GENERATION, enter HELD CHECK GENERATION, check HELD FILE REPLIES, or show HELD");
    return 2;
}
