/* Answers one command on one document again and again, in the process or by starting the program, and says how often in a
 * second: calls THREADS COUNT DOCUMENT WORD [PROGRAM]. Each thread asks COUNT times; without PROGRAM it calls
 * palvumiose_c_run. Ends with 1 where an answer differs from the first one. */
#define _GNU_SOURCE
#include <fcntl.h>
#include <palvumiose_c.h>
#include <pthread.h>
#include <spawn.h>
#include <stdio.h>
#include <stdlib.h>
#include <string.h>
#include <sys/resource.h>
#include <sys/wait.h>
#include <time.h>
#include <unistd.h>

enum { ROOM = 1 << 20 };

extern char **environ;
static const char *file, *word, *program;
static uint8_t *document, first[ROOM];
static size_t document_size, first_size;
static int count, first_status;

/* By starting the program. */
static int by_program(uint8_t *out, size_t *size) {
    int ends[2], status, in = open(file, O_RDONLY | O_CLOEXEC);
    if (in < 0 || pipe2(ends, O_CLOEXEC))
        return -1;
    posix_spawn_file_actions_t actions;
    posix_spawn_file_actions_init(&actions);
    posix_spawn_file_actions_adddup2(&actions, in, 0);
    posix_spawn_file_actions_adddup2(&actions, ends[1], 1);
    char *words[] = {(char *)program, (char *)word, 0};
    pid_t child;
    int wrong = posix_spawn(&child, program, &actions, 0, words, environ);
    posix_spawn_file_actions_destroy(&actions);
    close(in), close(ends[1]);
    ssize_t got;
    for (*size = 0; (got = read(ends[0], out + *size, ROOM - *size)) > 0;)
        *size += got;
    close(ends[0]);
    if (wrong || waitpid(child, &status, 0) < 0)
        return -1;
    return WIFEXITED(status) ? WEXITSTATUS(status) : -1;
}

static int ask(uint8_t *out, size_t *size) {
    if (program)
        return by_program(out, size);
    return palvumiose_c_run((const uint8_t *)word, strlen(word), document, document_size, out, ROOM, size);
}

static void *work(void *wrong) {
    uint8_t *out = malloc(ROOM);
    size_t size;
    for (int i = 0; out && i < count; i++)
        if (ask(out, &size) != first_status || size != first_size || memcmp(out, first, size))
            *(long *)wrong += 1;
    *(long *)wrong += !out;
    free(out);
    return 0;
}

static double seconds(struct timespec t) { return t.tv_sec + t.tv_nsec * 1e-9; }
static double of(struct timeval t) { return t.tv_sec + t.tv_usec * 1e-6; }

int main(int words, char **given) {
    if (words < 5)
        return 2;
    int threads = atoi(given[1]);
    count = atoi(given[2]), file = given[3], word = given[4], program = given[5];
    FILE *from = fopen(file, "rb");
    document = malloc(ROOM);
    if (!from || !document || threads < 1 || threads > 64)
        return 2;
    document_size = fread(document, 1, ROOM, from);
    first_status = ask(first, &first_size);
    long wrong[64] = {0}, all = 0;
    pthread_t running[64];
    pthread_attr_t small; /* as much stack as a caller owes */
    pthread_attr_init(&small), pthread_attr_setstacksize(&small, 2 << 20);
    struct timespec began, ended;
    clock_gettime(CLOCK_MONOTONIC, &began);
    for (int i = 0; i < threads; i++)
        if (pthread_create(&running[i], &small, work, &wrong[i]))
            return 2;
    for (int i = 0; i < threads; i++)
        pthread_join(running[i], 0), all += wrong[i];
    clock_gettime(CLOCK_MONOTONIC, &ended);
    struct rusage used;
    getrusage(program ? RUSAGE_CHILDREN : RUSAGE_SELF, &used);
    double whole = (double)threads * count, cpu = of(used.ru_utime) + of(used.ru_stime);
    printf("%s, %d threads: %.0f a second, %.3f ms of the processor each, status %d, %ld wrong\n", word, threads,
           whole / (seconds(ended) - seconds(began)), 1000 * cpu / whole, first_status, all);
    return all != 0;
}
