/* A library to be preloaded: it stands before `malloc` and `realloc`, by which alone `fbr` takes memory. What it does stands in the environment.
 *
 * FAIL_AT: the growth of this number (the first is 1) is refused, and that is told on standard error.
 * EACH: before each growth the process forks. The child is refused this growth and runs to its end; then the process goes on. To this file it appends for each child a line of
 *   the growth's number, the child's wait status, and how many bytes it printed and told on standard error, and then these bytes. Standard output has to be a file that can be read.
 * MARK: it stands before `write` too, and tells at the end of the process how many growths were asked for in all, and how many from the first write to standard output on that
 *   begins with MARK. */
#define _GNU_SOURCE
#include <fcntl.h>
#include <stdatomic.h>
#include <stdbool.h>
#include <stdio.h>
#include <stdlib.h>
#include <string.h>
#include <sys/mman.h>
#include <sys/wait.h>
#include <unistd.h>

void *__libc_malloc(size_t size);
void *__libc_realloc(void *old, size_t size);
ssize_t __write(int file, const void *bytes, size_t count);

/* How long a child may run, in seconds, and how many files of the process are put back to where they stood. */
enum { SECONDS = 20, FILES = 16 };

static atomic_long seen = 0;
/* Whether growths are neither counted nor refused: in a child, and in this library itself. */
static atomic_bool is_off = false;
/* How many growths there had been at the mark; below 0 before it. */
static atomic_long at_mark = -1;

/* Appends what a file holds to another one. */
static void copy(int from, int to) {
    char bytes[4096];
    long at = 0;
    for (ssize_t count; (count = pread(from, bytes, sizeof bytes, at)) > 0; at += count) {
        if (__write(to, bytes, count) != count) abort();
    }
}

static long length(int file) {
    return lseek(file, 0, SEEK_CUR);
}

/* Lets a child run without this growth, and reports it. True in the child. */
static bool is_child(long number, const char *report) {
    long places[FILES];
    for (int file = 0; file < FILES; file++) places[file] = length(file);
    int printed = memfd_create("printed", 0), told = memfd_create("told", 0);
    copy(1, printed);
    pid_t child = fork();
    if (child == 0) {
        dup2(printed, 1);
        dup2(told, 2);
        alarm(SECONDS);
        return true;
    }
    int status = -1;
    if (child < 0 || waitpid(child, &status, 0) != child) abort();
    for (int file = 0; file < FILES; file++) {
        if (places[file] >= 0) lseek(file, places[file], SEEK_SET);
    }
    int to = open(report, O_WRONLY | O_CREAT | O_APPEND, 0600);
    dprintf(to, "%ld %d %ld %ld\n", number, status, length(printed), length(told));
    copy(printed, to);
    copy(told, to);
    close(to);
    close(printed);
    close(told);
    return false;
}

/* Whether this growth is refused. */
static bool fails(void) {
    if (is_off) return false;
    long number = ++seen;
    const char *report = getenv("EACH"), *asked = getenv("FAIL_AT");
    if (report) {
        is_off = true;
        bool refused = is_child(number, report);
        is_off = refused;
        return refused;
    }
    if (!asked || number != atol(asked)) return false;
    dprintf(2, "failed %ld\n", number);
    return true;
}

void *malloc(size_t size) {
    return fails() ? NULL : __libc_malloc(size);
}

void *realloc(void *old, size_t size) {
    return fails() ? NULL : __libc_realloc(old, size);
}

/* Whether these bytes begin with MARK. It is false where there is none. */
static bool is_mark(const char *bytes, size_t count) {
    const char *mark = getenv("MARK");
    return mark && count >= strlen(mark) && memcmp(bytes, mark, strlen(mark)) == 0;
}

ssize_t write(int file, const void *bytes, size_t count) {
    if (file == 1 && at_mark < 0 && is_mark(bytes, count)) at_mark = (long)seen;
    return __write(file, bytes, count);
}

static void __attribute__((destructor)) tell(void) {
    if (getenv("MARK")) dprintf(2, "grown %ld, behind the mark %ld\n", (long)seen, at_mark < 0 ? -1 : seen - at_mark);
}
