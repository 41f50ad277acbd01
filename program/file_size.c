/*
 * Linked into both programs, outside the proofs: a limit on a file's size (ulimit -f) would end the process before it can undo what it began;
 * ignored, it is a failed write, which is told. A reader that left is one already: each Rattle program ignores SIGPIPE from its start. Declared by
 * hand, since the compiler that links here has no headers: Linux on x86-64.
 */
#define FILE_SIZE 25
typedef void (*handler)(int);
handler signal(int, handler);

__attribute__((constructor)) static void ignore_file_size(void) { signal(FILE_SIZE, (handler)1); }
