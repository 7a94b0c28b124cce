/* Answers each line of standard input by its length. Where an allocation is refused it says `memory` on standard error and
   ends with status 1. The words MISTAKE and NUMBER, from 1, name what it does in place of that where the allocation of this
   number is refused: `other` answers and goes on, `quiet` says nothing, `crash` aborts, `hang` never ends. With
   `threads` it starts a thread first. */
#include <pthread.h>
#include <stdio.h>
#include <stdlib.h>
#include <string.h>
#include <unistd.h>

static const char *mistake = "";
static long number;

static void put(int file, const char *text) {
    if (write(file, text, strlen(text)) < 0) abort();
}

/* Memory for a line and its end, or for an answer. */
static char *grown(char *old, size_t size) {
    static long made;
    char *new = realloc(old, size);
    int is_it = ++made == number;
    if (new) return new;
    while (is_it && !strcmp(mistake, "hang")) pause();
    if (is_it && !strcmp(mistake, "crash")) abort();
    if (is_it && !strcmp(mistake, "quiet")) exit(1);
    if (is_it && !strcmp(mistake, "other")) {
        put(1, "0\n");
        exit(0);
    }
    put(2, "memory\n");
    exit(1);
}

static void answer(size_t length) {
    char *text = grown(NULL, 32);
    snprintf(text, 32, "%zu\n", length);
    put(1, text);
    free(text);
}

static void *nothing(void *it) { return it; }

int main(int count, char **words) {
    char piece[5], *line = NULL;
    size_t length = 0;
    ssize_t got;
    pthread_t thread;
    if (count > 2) mistake = words[1], number = atol(words[2]);
    if (!strcmp(mistake, "threads") && pthread_create(&thread, NULL, nothing, NULL)) abort();
    while ((got = read(0, piece, sizeof piece)) > 0)
        for (ssize_t at = 0; at < got; at++) {
            line = grown(line, length + 1);
            line[length++] = piece[at];
            if (piece[at] != '\n') continue;
            answer(length - 1);
            length = 0;
        }
    free(line);
    return got < 0;
}
