/*
 * Receives a payment file: receive TABLE FILE DATE TIME TYPE CLOCK REPLIES [later]
 * 'later' is asked for where DATE is more than 31 days after the table's day, to which the table could not go back.
 * The replies go whole into REPLIES, one a line, and are then listed on standard output (K 1001). Exit status 0: served, and every
 * reply is K; 1: refused, or some reply is E; 2: trouble. Standard error says why.
 *
 * The order of writes; each is on the disk before the next that relies on it:
 *   1  TABLE.lock, with this process's number: one run at a time
 *   2  TABLE.new, empty: while it is there the table was not changed
 *   3  REPLIES.new, which gets the replies, then its name into the lock: what the lock names is of this run
 *   4  the table into TABLE.new, which takes the name TABLE in one step
 *   5  REPLIES.new takes the name REPLIES; the lock goes
 *   6  the replies are told
 * Cut off before TABLE.new takes the name: no stamp was taken and no reply told, so the file is received again. After it: the table
 * has the stamps and the replies stand, all of them, so they are sent. Thus no stamp is accepted twice, and a reply that is told
 * stands in the saved table. After a crash the next run tells what to type; 'lentilpot' finds the lock and leaves the table alone.
 */
#define _POSIX_C_SOURCE 200809L
#include "lentilpot.h"
#include <errno.h>
#include <fcntl.h>
#include <libgen.h>
#include <signal.h>
#include <stdio.h>
#include <stdlib.h>
#include <string.h>
#include <sys/stat.h>
#include <unistd.h>

static uint8_t table[LP_TABLE_SIZE], session[LP_SESSION_SIZE], reply[LP_REPLY_ROOM], input[65536];
/* TABLE, REPLIES, TABLE.lock, TABLE.new, REPLIES.new; whole, so that what is told of them is right from any folder */
static char table_name[4096], replies_name[4096], lock_name[4096], next_name[4096], written_name[4096];
static FILE *lock, *next, *replies;
static enum { NOTHING, LOCKED, BEGUN, ANSWERING, SAVED } stage;
static int finished, signed_length; /* signed_length: of the lock's first line */

/* A name in a command to type: in quotes, a quote itself as '\\''. */
static void quoted(const char *name, const char *ending) {
    fputs(" '", stderr);
    for (; *name; name++) *name == '\'' ? fputs("'\\''", stderr) : fputc(*name, stderr);
    fprintf(stderr, "%s'", ending);
}

static int is_there(const char *name, const char *ending, off_t *size) {
    char beside[4200];
    struct stat is;
    int found = !lstat(strcat(strcpy(beside, name), ending), &is);
    if (found && size) *size = is.st_size;
    return found;
}

/* What a run that was cut off left, told by its lock: whether it names replies, and whether TABLE.new is there. */
static void tell_mend(long process, const char *named) {
    off_t size = 0;
    if (is_there(next_name, "", NULL)) {
        /* TABLE.new goes last: without it the lock would say that the table was saved. */
        fputs("the table was not changed: mend, then receive the file again. To mend: ", stderr);
        if (*named) fputs("rm -f", stderr), quoted(named, ".new"), fputs(" && ", stderr);
        fputs("rm", stderr), quoted(lock_name, ""), fputs(" && rm", stderr), quoted(next_name, ""), fputc('\n', stderr);
        return;
    }
    if (!*named) fputs("nothing was received. To mend: rm", stderr);
    else if (!is_there(named, ".new", NULL)) fputs("the table was saved and the replies have their name; send them. To mend: rm", stderr);
    else {
        /* An empty file of the name is the run's own. */
        int other = is_there(named, "", &size) && size != 0;
        char ending[32] = "";
        if (other) snprintf(ending, sizeof ending, ".%ld", process);
        fputs("the table was saved; send these replies. To mend: mv", stderr), quoted(named, ".new"), quoted(named, ending);
        fputs(" && rm", stderr);
    }
    quoted(lock_name, ""), fputc('\n', stderr);
}

/* The lock is there: who has the table, or what to type. */
static void tell_locked(void) {
    char named[4200] = "", end = 0;
    long process = 0;
    FILE *f = fopen(lock_name, "r");
    int is_ours = f && fscanf(f, "%ld%c", &process, &end) == 2 && end == '\n' && process > 0;
    if (is_ours && (!fgets(named, sizeof named, f) || !strchr(named, '\n'))) *named = 0;
    named[strcspn(named, "\n")] = 0;
    int is_empty = f && !is_ours && fseek(f, 0, SEEK_END) == 0 && ftell(f) == 0;
    fprintf(stderr, "receive: %s: ", lock_name);
    if (is_empty) fputs("of a run that has just begun; if none runs it did nothing. To mend: rm", stderr), quoted(lock_name, ""), fputc('\n', stderr);
    else if (!is_ours) fputs("a lock that this program did not write, lentilpot's perhaps: the program that wrote it tells its mend\n", stderr);
    else if (!kill((pid_t)process, 0) || errno == EPERM) fprintf(stderr, "the table is in use by process %ld: try again when it has ended\n", process);
    else fprintf(stderr, "left by process %ld, which runs no more: ", process), tell_mend(process, named);
    if (f) fclose(f);
    exit(2);
}

static int flush_folder(const char *name) {
    char copy[4096];
    int folder = open(dirname(strcpy(copy, name)), O_RDONLY | O_DIRECTORY), failed = folder < 0 || fsync(folder);
    if (folder >= 0) close(folder);
    return failed;
}

/* Ends. Before the table is saved, what was made goes again in its order; after, all stays, for the replies count. */
static void leave(int status) {
    if (stage == SAVED) fputs("receive: type 'sync' first; then: ", stderr), tell_mend((long)getpid(), replies_name);
    if (stage == ANSWERING && !unlink(written_name) && !flush_folder(written_name)) stage = BEGUN;
    if (stage == BEGUN && !ftruncate(fileno(lock), signed_length) && !fsync(fileno(lock)) && !unlink(next_name)) stage = LOCKED;
    if (stage == LOCKED) unlink(lock_name);
    exit(status);
}

static void stop(int status, const char *what, const char *why) {
    fprintf(stderr, "receive: %s: %s\n", what, why);
    leave(status);
}

/* A word of digits alone: strtoull by itself would take signs, blanks and what only begins with digits. */
static uint64_t number(const char *word, const char *digits, size_t least, size_t most, const char *expected) {
    size_t width = strlen(word);
    if (width < least || width > most || strspn(word, digits) != width) stop(2, word, expected);
    return strtoull(word, NULL, (int)strlen(digits));
}

/* A whole name. Those beside it are up to 11 bytes longer, and a folder takes 255. */
static void whole(char *out, const char *name) {
    char folder[4096] = "";
    const char *last = strrchr(name, '/');
    if (!*name) stop(2, name, "expected a file's name, not an empty word");
    for (const char *c = name; *c; c++)
        if ((unsigned char)*c < ' ' || *c == 127) stop(2, "a file's name", "expected no control characters in it");
    if (*name != '/' && (!getcwd(folder, sizeof folder) || !strcat(folder, "/"))) stop(2, name, strerror(errno));
    if (strlen(last ? last + 1 : name) > 244 || strlen(folder) + strlen(name) > 4000)
        stop(2, name, "expected a file's name of at most 244 bytes, and 4,000 with its folders");
    strcat(strcpy(out, folder), name);
}

/* Days from 1 January 1980 on, or -1 where yymmdd is no date; the years are 1980 to 2079. */
static long day_number(uint32_t yymmdd) {
    static const int lengths[] = {31, 28, 31, 30, 31, 30, 31, 31, 30, 31, 30, 31};
    int years = (int)(yymmdd / 10000 + 20) % 100, month = (int)(yymmdd / 100 % 100), day = (int)(yymmdd % 100), leap = years % 4 == 0;
    if (yymmdd > 999999 || month < 1 || month > 12 || day < 1 || day > lengths[month - 1] + (month == 2 && leap)) return -1;
    long days = 365L * years + (years + 3) / 4 + day - 1;
    for (int m = 1; m < month; m++) days += lengths[m - 1] + (m == 2 && leap);
    return days;
}

/* The table's day: docs/FORMAT.md. */
static uint32_t table_day(void) {
    return table[4] | (uint32_t)table[5] << 8 | (uint32_t)table[6] << 16 | (uint32_t)table[7] << 24;
}

/* A refused opening: of refusal 4, which half. */
static void refused(uint32_t refusal, const char *date, const char *time) {
    char why[96];
    long given = day_number((uint32_t)strtoul(date, NULL, 10));
    if (refusal != LP_REFUSED_DATE_OR_TIME) stop(1, "refused", lp_refusal_words(refusal));
    if (given < 0) snprintf(why, sizeof why, "%s isn't a real date; the table's day is %06u", date, (unsigned)table_day());
    else if (given < day_number(table_day())) snprintf(why, sizeof why, "%s is before the table's day %06u", date, (unsigned)table_day());
    else snprintf(why, sizeof why, "%s isn't a real time; the table's day is %06u", time, (unsigned)table_day());
    stop(1, "refused", why);
}

/* A new file, for this user alone (a table holds keys); never one that is there, for a run that was cut off may have left it. What is
 * told of one that is there; of a lock its mend. */
static FILE *make(const char *name, int reached, const char *there) {
    int fd = open(name, O_RDWR | O_CREAT | O_EXCL, 0600);
    if (fd < 0 && errno == EEXIST && !there) tell_locked();
    if (fd < 0) stop(2, name, errno == EEXIST ? there : strerror(errno));
    stage = reached;
    FILE *f = fdopen(fd, "w+b");
    if (!f) stop(2, name, strerror(errno));
    return f;
}

/* Saving gives the name to a new file, so a link or a second name would be left with the old stamps. */
static struct stat read_table(const char *name) {
    struct stat named, is;
    if (lstat(name, &named)) stop(2, name, strerror(errno));
    if (!S_ISREG(named.st_mode) || named.st_nlink != 1) stop(2, name, "expected a file with this one name, and no link");
    int fd = open(name, O_RDONLY | O_NOFOLLOW | O_NONBLOCK);
    FILE *f = fd < 0 ? NULL : fdopen(fd, "rb");
    if (!f || fstat(fd, &is)) stop(2, name, strerror(errno));
    if (is.st_dev != named.st_dev || is.st_ino != named.st_ino || is.st_nlink != 1 || is.st_size != LP_TABLE_SIZE ||
        fread(table, 1, sizeof table, f) != sizeof table)
        stop(2, name, "expected a table, 49,152 bytes");
    fclose(f);
    return is;
}

static void begin(void) {
    struct stat there;
    if (is_there(next_name, "", NULL)) {
        fprintf(stderr, "receive: %s: left by a run that did not change the table, and whose lock was removed. To mend: rm", next_name);
        quoted(next_name, ""), fputc('\n', stderr), leave(2);
    }
    next = make(next_name, BEGUN, "another run has made it just now");
    if (flush_folder(table_name)) stop(2, table_name, strerror(errno));
    if (!lstat(replies_name, &there)) stop(2, replies_name, "is there, and replies are never replaced: name another REPLIES");
    replies = make(written_name, ANSWERING, "is there: of another run, perhaps on another table. Name another REPLIES");
    if (fprintf(lock, "%s\n", replies_name) < 0 || fflush(lock) || fsync(fileno(lock))) stop(2, lock_name, strerror(errno));
}

/* Writes an answer's reply down; gives the bytes taken. */
static size_t heed(uint64_t answer) {
    size_t n = lp_reply_length(answer);
    if (lp_refusal(answer)) stop(1, "refused", lp_refusal_words(lp_refusal(answer)));
    if (n && (fwrite(reply, 1, n, replies) != n || putc('\n', replies) == EOF)) stop(2, written_name, strerror(errno));
    finished = lp_finished(answer);
    return lp_taken(answer);
}

static void receive(FILE *file, const char *name) {
    for (size_t n; !finished && (n = fread(input, 1, sizeof input, file)) > 0;)
        for (size_t at = 0; !finished && at < n;)
            at += heed(lp_read(table, sizeof table, session, sizeof session, input + at, n - at, reply, sizeof reply));
    if (ferror(file)) stop(2, name, "can't be read");
    while (!finished) heed(lp_end(table, sizeof table, session, sizeof session, reply, sizeof reply));
    if (fflush(replies) || fsync(fileno(replies)) || flush_folder(written_name)) stop(2, written_name, strerror(errno));
}

static void save(const struct stat *old) {
    int fd = fileno(next);
    /* Where the owner can't be kept the mode stays 0600, for the group would be another one. */
    if (!fchown(fd, old->st_uid, old->st_gid) && fchmod(fd, old->st_mode & 0777)) stop(2, next_name, strerror(errno));
    if (fwrite(table, 1, sizeof table, next) != sizeof table || fflush(next) || fsync(fd) || fclose(next) ||
        rename(next_name, table_name))
        stop(2, next_name, strerror(errno));
    stage = SAVED;
    if (flush_folder(table_name)) stop(2, table_name, strerror(errno));
    /* The name is made first, empty, for rename alone would replace a file that came meanwhile. */
    int made = open(replies_name, O_WRONLY | O_CREAT | O_EXCL, 0600);
    if (made < 0 || close(made) || rename(written_name, replies_name) || flush_folder(replies_name) || unlink(lock_name))
        stop(2, replies_name, strerror(errno));
    stage = NOTHING;
}

/* Lists the replies as they were saved; gives the exit status. Where there are none, that is said. */
static int tell(const char *file_name) {
    char line[LP_REPLY_ROOM + 2];
    int status = 0, count = 0;
    for (rewind(replies); fgets(line, sizeof line, replies); count++) {
        if (!lp_reply_accepted((const uint8_t *)line)) status = 1;
        printf("%c %.*s\n", line[LP_AT_VERDICT], LP_WIDTH_CODE, line + LP_AT_CODE);
    }
    if (ferror(replies) || fflush(stdout) || ferror(stdout)) stop(2, "can't list the replies", "they stand in REPLIES");
    if (!count)
        fprintf(stderr, "receive: %s: no message stood in it, so there is no reply; the table's day is now %06u\n", file_name, (unsigned)table_day());
    return status;
}

int main(int argc, char **argv) {
    /* With one of them closed a file of ours would get its number, and the listing with it. */
    for (int fd = 0; fd < 3; fd++)
        if (fcntl(fd, F_GETFD) < 0) stop(2, "standard input, output and error", "expected to be open");
    signal(SIGPIPE, SIG_IGN); /* a reader that left is told, like a full disk */
    if (argc != 8 && (argc != 9 || strcmp(argv[8], "later"))) stop(2, "expected", "receive TABLE FILE DATE TIME TYPE CLOCK REPLIES [later]");
    uint32_t date = number(argv[3], "0123456789", 6, 6, "expected DATE, 6 digits yymmdd");
    uint32_t time = number(argv[4], "0123456789", 6, 6, "expected TIME, 6 digits hhmmss");
    uint32_t type = number(argv[5], "0123456789", 1, 2, "expected TYPE, 1 to 16");
    uint64_t clock = number(argv[6], "0123456789ABCDEF", 16, 16, "expected CLOCK, 16 hex digits 0-9 A-F");
    whole(table_name, argv[1]), whole(replies_name, argv[7]);
    strcat(strcpy(lock_name, table_name), ".lock"), strcat(strcpy(next_name, table_name), ".new");
    strcat(strcpy(written_name, replies_name), ".new");
    FILE *file = fopen(argv[2], "rb");
    if (!file) stop(2, argv[2], strerror(errno));
    lock = make(lock_name, LOCKED, NULL);
    if ((signed_length = fprintf(lock, "%ld\n", (long)getpid())) < 0 || fflush(lock)) stop(2, lock_name, strerror(errno));
    struct stat old = read_table(table_name);
    /* The table can't go back; the first day after the set-up, whose own is 800101, may be any. */
    if (argc == 8 && table_day() != 800101 && day_number(table_day()) >= 0 && day_number(date) > day_number(table_day()) + 31)
        stop(2, argv[3], "more than 31 days after the table's day: expected an earlier DATE, or the word later after REPLIES if it is meant");
    uint32_t refusal = lp_open(table, sizeof table, session, sizeof session, date, time, type, clock);
    if (refusal) refused(refusal, argv[3], argv[4]);
    begin();
    receive(file, argv[2]);
    save(&old);
    return tell(argv[2]);
}
