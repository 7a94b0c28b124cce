/* Loaded before the C library, it makes one call on a file or on a connection fail, or ends the program at it: the call
   whose number, from 1, is in FAIL_CALL. FAIL_CALL_ON says which calls count: `file`, those that change a regular file or
   bring it to the disk, or `socket`, those that read or write a connection. FAIL_CALL_HOW says what becomes of the call:
   `stop` ends the program before it, `torn` once half of its bytes are written, `done` once it is done, each as a kill
   does; `error` makes it fail. At SIGUSR1 it writes how many calls there were into the file that FAIL_CALL_COUNT names,
   and counts anew; the number is then in the file that FAIL_CALL_NUMBER names. */
#define _GNU_SOURCE
#include <dirent.h>
#include <dlfcn.h>
#include <errno.h>
#include <fcntl.h>
#include <pthread.h>
#include <signal.h>
#include <stdio.h>
#include <stdlib.h>
#include <string.h>
#include <sys/socket.h>
#include <sys/stat.h>
#include <sys/uio.h>
#include <unistd.h>

static long calls, wanted = -1;

static const char *said(const char *name) {
    const char *text = getenv(name);
    return text ? text : "";
}

#define IS_ON_FILES (!strcmp(said("FAIL_CALL_ON"), "file"))

/* Whether a call on this file or connection is the one, which is counted. */
static int is_it(int file) {
    struct stat about;
    if (wanted < 0) wanted = atol(said("FAIL_CALL"));
    if (fstat(file, &about) || !(IS_ON_FILES ? S_ISREG(about.st_mode) : S_ISSOCK(about.st_mode))) return 0;
    return __sync_add_and_fetch(&calls, 1) == wanted;
}

static void end(void) {
    kill(getpid(), SIGKILL);
    for (;;) pause();
}

#define REAL(name) ((__typeof__(&name))dlsym(RTLD_NEXT, #name))
#define IS(how) (!strcmp(said("FAIL_CALL_HOW"), how))

/* Whether a call that is the one fails. */
static int fails(void) {
    if (IS("stop")) end();
    errno = IS_ON_FILES ? EIO : ECONNRESET;
    return IS("error");
}

/* Whether a write that ends here finds no room. */
static int finds_no_room(int file, off_t end) {
    struct stat about;
    if (!IS("full") || fstat(file, &about) || !S_ISREG(about.st_mode) || end <= about.st_size) return 0;
    errno = ENOSPC;
    return 1;
}

/* A call on a file or a connection: what it does, and what it does to half of its bytes. */
#define CALL(file, whole, half)                       \
    do {                                              \
        if (!is_it(file)) return whole;               \
        if (fails()) return -1;                       \
        long done = IS("torn") ? (half) : (whole);    \
        (void)done;                                   \
        end();                                        \
        return -1;                                    \
    } while (0)

/* Where FAIL_CALL_SYNCED is set each file has beside it what a loss of power leaves of it in any case: under its name and
   `.synced` a copy of it as it was last brought to the disk, which goes with it where it gets another name; and the directory
   has in `names.synced` the names that are on the disk, a line each. Each is made aside and then gets its name, since another
   thread may end the program meanwhile. Where FAIL_CALL_LIES is set the calls that bring a file whose name ends so to the disk
   do nothing. */
static pthread_mutex_t one_at_a_time = PTHREAD_MUTEX_INITIALIZER;

static int is_kept(void) { return getenv("FAIL_CALL_SYNCED") != NULL; }

static void put(int file, const char *bytes, ssize_t length) {
    if (REAL(write)(file, bytes, length) != length) _Exit(5);
}

static void put_content(const char *path, int copy) {
    char bytes[65536];
    ssize_t length;
    off_t at = 0;
    int source = open(path, O_RDONLY);
    if (source < 0) _Exit(5);
    for (; (length = pread(source, bytes, sizeof bytes, at)) > 0; at += length) put(copy, bytes, length);
    if (length < 0) _Exit(5);
    close(source);
}

static void put_names(const char *path, int copy) {
    DIR *directory = opendir(path);
    if (!directory) _Exit(5);
    for (struct dirent *entry; (entry = readdir(directory));) {
        put(copy, entry->d_name, strlen(entry->d_name));
        put(copy, "\n", 1);
    }
    closedir(directory);
}

/* What is at the path was brought to the disk. */
static void keep(const char *path, int is_directory) {
    char synced[4096], aside[4110];
    snprintf(synced, sizeof synced, "%s%s.synced", path, is_directory ? "/names" : "");
    snprintf(aside, sizeof aside, "%s.aside", synced);
    int copy = open(aside, O_CREAT | O_WRONLY | O_TRUNC, 0600);
    if (copy < 0) _Exit(5);
    (is_directory ? put_names : put_content)(path, copy);
    close(copy);
    if (REAL(rename)(aside, synced)) _Exit(5);
}

static int is_lied_of(const char *path) {
    size_t length = strlen(path), end = strlen(said("FAIL_CALL_LIES"));
    return end && length >= end && !strcmp(path + length - end, said("FAIL_CALL_LIES"));
}

/* Brings a file or a directory to the disk. */
static int brought(int file, int (*bring)(int)) {
    char link[64], path[4000];
    struct stat about;
    snprintf(link, sizeof link, "/proc/self/fd/%d", file);
    ssize_t length = readlink(link, path, sizeof path - 1);
    if (length < 0 || fstat(file, &about)) return bring(file);
    path[length] = 0;
    if (is_lied_of(path)) return 0;
    int is_directory = S_ISDIR(about.st_mode);
    /* Of two threads that bring one directory to the disk the one that lists more names comes last. */
    if (is_directory) pthread_mutex_lock(&one_at_a_time);
    int answer = bring(file);
    if (!answer && is_kept() && (is_directory || S_ISREG(about.st_mode))) keep(path, is_directory);
    if (is_directory) pthread_mutex_unlock(&one_at_a_time);
    return answer;
}

/* The copy goes first, so that no file stands without its own. */
int rename(const char *from, const char *to) {
    char copies[2][4096];
    if (is_kept()) {
        snprintf(copies[0], sizeof copies[0], "%s.synced", from);
        snprintf(copies[1], sizeof copies[1], "%s.synced", to);
        REAL(rename)(copies[0], copies[1]);
    }
    return REAL(rename)(from, to);
}

ssize_t write(int file, const void *bytes, size_t size) {
    if (finds_no_room(file, lseek(file, 0, SEEK_CUR) + (off_t)size)) return -1;
    CALL(file, REAL(write)(file, bytes, size), REAL(write)(file, bytes, size / 2));
}

ssize_t pwrite(int file, const void *bytes, size_t size, off_t at) {
    if (finds_no_room(file, at + (off_t)size)) return -1;
    CALL(file, REAL(pwrite)(file, bytes, size, at), REAL(pwrite)(file, bytes, size / 2, at));
}

ssize_t pwrite64(int file, const void *bytes, size_t size, off64_t at) {
    if (finds_no_room(file, at + (off_t)size)) return -1;
    CALL(file, REAL(pwrite64)(file, bytes, size, at), REAL(pwrite64)(file, bytes, size / 2, at));
}

ssize_t writev(int file, const struct iovec *parts, int count) {
    CALL(file, REAL(writev)(file, parts, count), REAL(writev)(file, parts, count / 2));
}

int ftruncate(int file, off_t size) { CALL(file, REAL(ftruncate)(file, size), 0); }
int ftruncate64(int file, off64_t size) { CALL(file, REAL(ftruncate64)(file, size), 0); }
int fsync(int file) { CALL(file, brought(file, REAL(fsync)), 0); }
int fdatasync(int file) { CALL(file, brought(file, REAL(fdatasync)), 0); }

#define ON_CONNECTION(file, whole)                    \
    do {                                              \
        if (IS_ON_FILES) return whole;                \
        CALL(file, whole, 0);                         \
    } while (0)

ssize_t read(int file, void *bytes, size_t size) { ON_CONNECTION(file, REAL(read)(file, bytes, size)); }
ssize_t recv(int file, void *bytes, size_t size, int how) { ON_CONNECTION(file, REAL(recv)(file, bytes, size, how)); }
ssize_t send(int file, const void *bytes, size_t size, int how) { ON_CONNECTION(file, REAL(send)(file, bytes, size, how)); }
ssize_t readv(int file, const struct iovec *parts, int count) { ON_CONNECTION(file, REAL(readv)(file, parts, count)); }
ssize_t recvmsg(int file, struct msghdr *message, int how) { ON_CONNECTION(file, REAL(recvmsg)(file, message, how)); }
ssize_t sendmsg(int file, const struct msghdr *message, int how) { ON_CONNECTION(file, REAL(sendmsg)(file, message, how)); }

static void count_anew(int signal) {
    (void)signal;
    char text[32] = {0};
    int length = snprintf(text, sizeof text, "%ld", calls);
    int file = open(said("FAIL_CALL_COUNT"), O_CREAT | O_WRONLY | O_TRUNC, 0600);
    if (REAL(write)(file, text, length) != length) _Exit(3);
    close(file);
    memset(text, 0, sizeof text);
    file = open(said("FAIL_CALL_NUMBER"), O_RDONLY);
    if (file < 0 || REAL(read)(file, text, sizeof text - 1) < 0) _Exit(4);
    close(file);
    calls = 0;
    wanted = atol(text);
}

__attribute__((constructor)) static void begin(void) {
    if (getenv("FAIL_CALL_NUMBER")) signal(SIGUSR1, count_anew);
}
