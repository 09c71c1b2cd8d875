/* Calls the library at the edges of what it takes, and sees each answer: edges PLAIN PROVED, two
 * files with a case, the second with the proof that `prove` writes. Room ends where memory that may
 * be touched does, so that a byte written past it ends the process. It prints how many answers were
 * seen, and ends with 1 at the first that isn't as it should be. */
#define _GNU_SOURCE
#include "gkr.h"
#include <stdio.h>
#include <stdlib.h>
#include <string.h>
#include <sys/mman.h>
#include <unistd.h>

enum { MOST = GKR_CASE_LIMIT + (1 << 20) };

static uint8_t plain[MOST], proved[MOST], long_case[GKR_CASE_LIMIT + 1], whole[MOST];
static size_t plain_size, proved_size, seen;

typedef uint8_t call(const uint8_t *, size_t, uint8_t *, size_t, size_t *);

/* Room of so many bytes, with nothing that may be touched after it. */
static uint8_t *room_of(size_t size) {
    size_t page = (size_t)sysconf(_SC_PAGESIZE), pages = (size + page - 1) / page * page;
    uint8_t *at = mmap(0, pages + page, PROT_READ | PROT_WRITE, MAP_PRIVATE | MAP_ANONYMOUS, -1, 0);
    if (at == MAP_FAILED || mprotect(at + pages, page, PROT_NONE)) exit(2);
    uint8_t *room = at + pages - size;
    memset(at, 0xa5, pages);
    return room;
}

static int is_untouched(const uint8_t *room, size_t from, size_t size) {
    for (size_t at = from; at < size; at++)
        if (room[at] != 0xa5) return 0;
    return 1;
}

static void sees(int good, const char *what) {
    seen++;
    if (good) return;
    printf("edges: %s\n", what);
    exit(1);
}

static size_t load(const char *path, uint8_t *to) {
    FILE *file = fopen(path, "rb");
    if (!file) exit(2);
    size_t size = fread(to, 1, MOST, file);
    fclose(file);
    return size;
}

static uint8_t prove(const uint8_t *input, size_t size, uint8_t *reply, size_t room,
                     size_t *needed) {
    return gkr_c_prove(GKR_LINES_1, input, size, reply, room, needed);
}

static uint8_t shorten(const uint8_t *input, size_t size, uint8_t *reply, size_t room,
                       size_t *needed) {
    return gkr_c_convert(2, input, size, reply, room, needed);
}

static uint8_t run_verify(const uint8_t *input, size_t size, uint8_t *reply, size_t room,
                          size_t *needed) {
    return gkr_c_run((const uint8_t *)"verify", 6, input, size, reply, room, needed);
}

/* Rooms of no byte, of one too few, of just enough and of more. */
static void rooms(call *of, const uint8_t *input, size_t size, const char *what) {
    size_t wanted = 77, needed = 77;
    uint8_t status = of(input, size, whole, sizeof whole, &wanted);
    uint8_t *none = room_of(0);
    sees(of(input, size, none, 0, &needed) == status && needed == wanted && wanted > 0, what);
    size_t rooms[] = {1, wanted - 1, wanted, wanted + 1, wanted + 5000};
    for (int at = 0; at < 5; at++) {
        uint8_t *room = room_of(rooms[at]);
        int fits = rooms[at] >= wanted;
        needed = 77;
        sees(of(input, size, room, rooms[at], &needed) == status && needed == wanted, what);
        sees(!fits || !memcmp(room, whole, wanted), what);
        sees(is_untouched(room, fits ? wanted : 0, rooms[at]), what);
    }
}

/* A call that ends so, with this reply, in ample room. */
static void ends(uint8_t status, uint8_t due, const size_t *needed, const uint8_t *room,
                 const char *reply, const char *what) {
    size_t size = strlen(reply);
    sees(status == due && *needed == size && !memcmp(room, reply, size) &&
             is_untouched(room, size, 4096),
         what);
}

static void inputs(call *of, const char *what) {
    size_t needed = 77;
    uint8_t *room = room_of(4096), *nothing = room_of(0);
    ends(of(nothing, 0, room, 4096, &needed), GKR_BAD_CASE, &needed, room, "refused case end 0\n",
         what);
    room = room_of(4096);
    ends(of(long_case, sizeof long_case, room, 4096, &needed), GKR_TOO_LONG, &needed, room,
         "refused long 8388608\n", what);
    room = room_of(4096);
    ends(of(long_case, sizeof long_case - 1, room, 4096, &needed), GKR_BAD_CASE, &needed, room,
         "refused case header 0\n", what);
    room = room_of(4096);
    ends(of(proved, 10, room, 4096, &needed), GKR_BAD_CASE, &needed, room, "refused case end 10\n",
         what);
}

static void words(const char *text, size_t size, const uint8_t *input, size_t length, uint8_t due,
                  const char *reply) {
    size_t needed = 77;
    uint8_t *room = room_of(4096), *apart = room_of(size);
    memcpy(apart, text, size);
    ends(gkr_c_run(apart, size, input, length, room, 4096, &needed), due, &needed, room, reply,
         text);
}

static void choices(void) {
    uint32_t numbers[] = {0, 4, 5, 256, 258, 0x80000001u, 0xffffffffu};
    for (int at = 0; at < 7; at++) {
        size_t needed = 77;
        uint8_t *room = room_of(4096);
        ends(gkr_c_prove(numbers[at], plain, plain_size, room, 4096, &needed), GKR_USAGE, &needed,
             room, "", "an unknown kind");
        ends(gkr_c_convert(numbers[at], proved, proved_size, room, 4096, &needed), GKR_USAGE,
             &needed, room, "", "an unknown version");
    }
    size_t needed = 77;
    uint8_t *room = room_of(4096);
    ends(gkr_c_convert(3, proved, proved_size, room, 4096, &needed), GKR_USAGE, &needed, room, "",
         "version 3");
}

int main(int argc, char **argv) {
    if (argc != 3) return 2;
    plain_size = load(argv[1], plain);
    proved_size = load(argv[2], proved);
    memset(long_case, '7', sizeof long_case);
    struct {
        call *of;
        const char *name;
        int takes_proved;
    } calls[] = {
        {gkr_c_eval, "eval", 0},     {gkr_c_circuit, "circuit", 0}, {prove, "prove", 0},
        {gkr_c_verify, "verify", 1}, {gkr_c_audit, "audit", 1},     {shorten, "convert", 1},
        {run_verify, "run", 1},
    };
    for (int at = 0; at < 7; at++) {
        int it = calls[at].takes_proved;
        rooms(calls[at].of, it ? proved : plain, it ? proved_size : plain_size, calls[at].name);
        rooms(calls[at].of, it ? plain : proved, it ? plain_size : proved_size, calls[at].name);
        inputs(calls[at].of, calls[at].name);
    }
    choices();
    words("verify", 6, proved, proved_size, GKR_DONE, "accepted\n");
    words("verify\0", 7, proved, proved_size, GKR_USAGE, "refused usage\n");
    words("\0verify", 7, proved, proved_size, GKR_USAGE, "refused usage\n");
    words("ver\0ify", 7, proved, proved_size, GKR_USAGE, "refused usage\n");
    words("verify\0--", 9, proved, proved_size, GKR_DONE, "accepted\n");
    words("\0\0\0", 3, proved, proved_size, GKR_USAGE, "refused usage\n");
    words("", 0, proved, proved_size, GKR_USAGE, "refused usage\n");
    words("prove\0--proof\0lines", 19, plain, plain_size, GKR_USAGE, "refused usage\n");
    words("prove\0--workers\00065", 18, plain, plain_size, GKR_USAGE, "refused usage\n");
    words("--help", 6, plain, plain_size, GKR_USAGE, "refused usage\n");
    words("verify\xff", 7, proved, proved_size, GKR_UNREADABLE, "");
    words("\xc3", 1, proved, proved_size, GKR_UNREADABLE, "");
    words("demo\0001", 6, plain, plain_size, GKR_NOT_HERE, "");
    words("serve", 5, plain, plain_size, GKR_NOT_HERE, "");
    words("session\0--piece\0007", 17, plain, plain_size, GKR_NOT_HERE, "");
    printf("edges: %zu answers as they should be\n", seen);
    return 0;
}
