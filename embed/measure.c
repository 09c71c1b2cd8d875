/* Measures the library: measure PLAIN PROVED [PROGRAM] prints for each command how many calls a
 * second one thread makes, and four do, how much processor time a call takes, and for verify and
 * prove the same of starting PROGRAM for each; then how many bytes are still taken after 1,000
 * calls. measure stack PLAIN prints how many bytes of stack each command takes past those of a
 * thread that does nothing. */
#define _GNU_SOURCE
#include "gkr.h"
#include <fcntl.h>
#include <malloc.h>
#include <pthread.h>
#include <spawn.h>
#include <stdio.h>
#include <stdlib.h>
#include <string.h>
#include <sys/resource.h>
#include <sys/wait.h>
#include <time.h>
#include <unistd.h>

enum { THREADS = 4, STARTS = 200, STACK = 8 << 20 };

static const char *names[] = {"verify", "prove", "audit", "convert", "eval", "circuit"};
static uint8_t plain[GKR_CASE_LIMIT], proved[GKR_CASE_LIMIT];
static size_t plain_size, proved_size;
static int calls;

static double now(void) {
    struct timespec at;
    clock_gettime(CLOCK_MONOTONIC, &at);
    return at.tv_sec + at.tv_nsec / 1e9;
}

/* Processor seconds of this process, or of those that it started. */
static double spent(int whose) {
    struct rusage used;
    getrusage(whose, &used);
    return used.ru_utime.tv_sec + used.ru_stime.tv_sec +
           (used.ru_utime.tv_usec + used.ru_stime.tv_usec) / 1e6;
}

static uint8_t call(int what) {
    static __thread uint8_t *reply;
    size_t needed, room = GKR_CASE_LIMIT;
    if (!reply) reply = malloc(room);
    switch (what) {
    case 0: return gkr_c_verify(proved, proved_size, reply, room, &needed);
    case 1: return gkr_c_prove(GKR_LINES_1, plain, plain_size, reply, room, &needed);
    case 2: return gkr_c_audit(proved, proved_size, reply, room, &needed);
    case 3: return gkr_c_convert(2, proved, proved_size, reply, room, &needed);
    case 4: return gkr_c_eval(plain, plain_size, reply, room, &needed);
    default: return gkr_c_circuit(plain, plain_size, reply, room, &needed);
    }
}

static void *many(void *what) {
    for (int i = 0; i < calls; i++)
        if (call((int)(long)what)) abort();
    return 0;
}

static void *once(void *what) {
    call((int)(long)what);
    return 0;
}

static void *nothing(void *it) { return it; }

/* The bytes of a painted stack that a thread wrote. */
static size_t depth(void *(*what)(void *), int which) {
    uint8_t *stack = aligned_alloc(4096, STACK);
    pthread_attr_t how;
    pthread_t thread;
    memset(stack, 0xc3, STACK);
    pthread_attr_init(&how);
    pthread_attr_setstack(&how, stack, STACK);
    if (pthread_create(&thread, &how, what, (void *)(long)which)) abort();
    pthread_join(thread, 0);
    size_t at = 0;
    while (at < STACK && stack[at] == 0xc3) at++;
    free(stack);
    return STACK - at;
}

extern char **environ;

/* Starts the program for a command, hands it the bytes, and waits for its end. */
static void start(const char *program, const char *command, const uint8_t *bytes, size_t count) {
    int in[2], out[2], status;
    static uint8_t reply[65536];
    if (pipe2(in, O_CLOEXEC) || pipe2(out, O_CLOEXEC)) abort();
    posix_spawn_file_actions_t acts;
    posix_spawn_file_actions_init(&acts);
    posix_spawn_file_actions_adddup2(&acts, in[0], 0);
    posix_spawn_file_actions_adddup2(&acts, out[1], 1);
    char *words[] = {"gkr", (char *)command, 0};
    pid_t child;
    if (posix_spawn(&child, program, &acts, 0, words, environ)) abort();
    posix_spawn_file_actions_destroy(&acts);
    close(in[0]);
    close(out[1]);
    if (write(in[1], bytes, count) != (ssize_t)count) abort();
    close(in[1]);
    while (read(out[0], reply, sizeof reply) > 0) {
    }
    close(out[0]);
    waitpid(child, &status, 0);
    if (!WIFEXITED(status) || WEXITSTATUS(status)) abort();
}

static size_t load(const char *path, uint8_t *to) {
    FILE *file = fopen(path, "rb");
    if (!file) exit(2);
    size_t size = fread(to, 1, GKR_CASE_LIMIT, file);
    fclose(file);
    return size;
}

static void speed(int what, const char *program) {
    double begun = now();
    int count = 0;
    while (now() - begun < 0.2) call(what), count++;
    calls = 1 + count * 2;
    pthread_t all[THREADS];
    begun = now();
    for (int at = 0; at < THREADS; at++) pthread_create(&all[at], 0, many, (void *)(long)what);
    for (int at = 0; at < THREADS; at++) pthread_join(all[at], 0);
    double side_by_side = THREADS * calls / (now() - begun), cpu = spent(RUSAGE_SELF);
    begun = now();
    many((void *)(long)what);
    printf("%-8s %8.0f/s in one thread, %8.0f/s in four, %.1f us of a processor", names[what],
           calls / (now() - begun), side_by_side, (spent(RUSAGE_SELF) - cpu) / calls * 1e6);
    if (program && what < 2) {
        cpu = spent(RUSAGE_SELF) + spent(RUSAGE_CHILDREN);
        begun = now();
        for (int at = 0; at < STARTS; at++)
            start(program, names[what], what ? plain : proved, what ? plain_size : proved_size);
        printf("; by a process each %5.0f/s", STARTS / (now() - begun));
        printf(", %.0f us", (spent(RUSAGE_SELF) + spent(RUSAGE_CHILDREN) - cpu) / STARTS * 1e6);
    }
    printf("\n");
}

int main(int argc, char **argv) {
    if (argc < 3) return 2;
    if (!strcmp(argv[1], "stack")) {
        plain_size = load(argv[2], plain);
        if (gkr_c_prove(GKR_LINES_1, plain, plain_size, proved, GKR_CASE_LIMIT, &proved_size))
            return 1;
        size_t empty = depth(nothing, 0);
        for (int what = 0; what < 6; what++)
            printf("%s %zu\n", names[what], depth(once, what) - empty);
        return 0;
    }
    plain_size = load(argv[1], plain);
    proved_size = load(argv[2], proved);
    for (int what = 0; what < 6; what++) speed(what, argc > 3 ? argv[3] : 0);
    struct mallinfo2 before = mallinfo2();
    for (int at = 0; at < 1000; at++) call(0);
    printf("bytes still taken after 1000 calls: %zd\n",
           (ssize_t)(mallinfo2().uordblks - before.uordblks));
    return 0;
}
