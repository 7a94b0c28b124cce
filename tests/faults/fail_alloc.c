/* Loaded before the C library, it refuses one allocation: the one whose number, from 1, is in FAIL_ALLOC. At the end of
   the program it writes how many allocations there were into the file that FAIL_ALLOC_COUNT names, if it names one. At
   SIGUSR1 it does so too, and counts anew; the number is then in the file that FAIL_ALLOC_NUMBER names.

   FAIL_ALLOC_EACH, `FIRST STEP SECONDS REPORT`, refuses many in one run: the allocations FIRST, FIRST + STEP and so on, each
   in a copy of the program that is made there (fork) and goes on in its place to its end, or is killed after so many
   seconds. What it leaves goes to the file descriptor REPORT: a line of the allocation's number, the wait status, and the
   lengths of standard output and of standard error, with these two behind it. Then the program goes on, with the
   allocation granted. Its standard input, output and error have to be regular files that nobody else has opened: a copy
   goes on in them where the program is, and they are put back behind it. A program that has threads has no such copies:
   it ends with status 6. */
#define _GNU_SOURCE
#include <dlfcn.h>
#include <errno.h>
#include <fcntl.h>
#include <signal.h>
#include <stdio.h>
#include <stdlib.h>
#include <sys/single_threaded.h>
#include <sys/wait.h>
#include <unistd.h>

static long calls, wanted = -1;

/* Of FAIL_ALLOC_EACH: the next number, or 0 where none is left, and the rest. */
static struct {
    long next, step, seconds, report;
} each;

static void read_variables(void) {
    const char *number = getenv("FAIL_ALLOC");
    char *text = getenv("FAIL_ALLOC_EACH");
    wanted = number ? atol(number) : 0;
    if (!text) return;
    each.next = strtol(text, &text, 10);
    each.step = strtol(text, &text, 10);
    each.seconds = strtol(text, &text, 10);
    each.report = strtol(text, &text, 10);
    alarm(each.seconds);
}

static void report_file(int file) {
    char bytes[65536];
    ssize_t length;
    for (off_t at = 0; (length = pread(file, bytes, sizeof bytes, at)) > 0; at += length)
        for (ssize_t done = 0, more; done < length; done += more)
            if ((more = write(each.report, bytes + done, length - done)) <= 0) _Exit(5);
}

static void report_copy(int status) {
    char line[128];
    off_t out = lseek(1, 0, SEEK_END), err = lseek(2, 0, SEEK_END);
    int length = snprintf(line, sizeof line, "%ld %d %ld %ld\n", each.next, status, (long)out, (long)err);
    if (write(each.report, line, length) != length) _Exit(5);
    report_file(1);
    report_file(2);
}

/* Whether this is the copy, which goes on without this allocation. The program itself waits for its end. */
static int is_copy(void) {
    off_t places[3];
    int status;
    if (!__libc_single_threaded) _Exit(6);
    for (int file = 0; file < 3; file++) places[file] = lseek(file, 0, SEEK_CUR);
    alarm(0);
    pid_t copy = fork();
    if (!copy) {
        each.next = 0;
        alarm(each.seconds);
        return 1;
    }
    if (copy < 0 || waitpid(copy, &status, 0) != copy) _Exit(5);
    report_copy(status);
    for (int file = 0; file < 3; file++)
        if (lseek(file, places[file], SEEK_SET) < 0 || (file && ftruncate(file, places[file]))) _Exit(5);
    each.next += each.step;
    alarm(each.seconds);
    return 0;
}

static int is_refused(void) {
    int before = errno;
    if (wanted < 0) read_variables();
    int refused = ++calls == wanted || (calls == each.next && is_copy());
    errno = refused ? ENOMEM : before;
    return refused;
}

void *malloc(size_t size) {
    static void *(*real)(size_t);
    if (!real) real = dlsym(RTLD_NEXT, "malloc");
    return is_refused() ? NULL : real(size);
}

void *realloc(void *old, size_t size) {
    static void *(*real)(void *, size_t);
    if (!real) real = dlsym(RTLD_NEXT, "realloc");
    return is_refused() ? NULL : real(old, size);
}

static void write_count(void);

static void count_anew(int signal) {
    (void)signal;
    char text[32] = {0};
    write_count();
    int file = open(getenv("FAIL_ALLOC_NUMBER"), O_RDONLY);
    if (file < 0 || read(file, text, sizeof text - 1) < 0) _Exit(4);
    close(file);
    calls = 0;
    wanted = atol(text);
}

__attribute__((constructor)) static void begin(void) {
    if (getenv("FAIL_ALLOC_NUMBER")) signal(SIGUSR1, count_anew);
}

__attribute__((destructor)) static void write_count(void) {
    const char *name = getenv("FAIL_ALLOC_COUNT");
    if (!name) return;
    char text[32];
    int length = snprintf(text, sizeof text, "%ld", calls);
    int file = open(name, O_CREAT | O_WRONLY | O_TRUNC, 0600);
    if (write(file, text, length) != length) _Exit(3);
    close(file);
}

void _exit(int status) {
    write_count();
    _Exit(status);
}
