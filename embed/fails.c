/* Refuses each growth of memory in turn, in the first call the first, in the next the second, and
 * so on until a call asks for no more, and then once more so that the growth and all later ones are
 * refused. A call then ends with GKR_MEMORY, or hands out a prefix of its reply with
 * GKR_WRITE_FAULT, or ends as it should; and it has given all memory back. fails COMMAND [NUMBER] <
 * INPUT, linked with -Wl,--wrap=malloc,--wrap=realloc,--wrap=free; it prints a line on what was
 * seen, and ends with 1 where that is wrong. */
#include "gkr.h"
#include <stdio.h>
#include <stdlib.h>
#include <string.h>

/* How many growths come before the one that is refused, or -1 where none is; blocks that are taken;
 * whether later growths are refused, too; and whether any was. */
static long left = -1, taken;
static int on, refused;

void *__real_malloc(size_t);
void *__real_realloc(void *, size_t);
void __real_free(void *);

static int refuses(void) {
    if (left < 0 || left-- > 0) return 0;
    if (on) left = 0;
    return refused = 1;
}

void *__wrap_malloc(size_t size) {
    void *at = refuses() ? 0 : __real_malloc(size);
    taken += at != 0;
    return at;
}

void *__wrap_realloc(void *old, size_t size) {
    void *at = refuses() ? 0 : __real_realloc(old, size);
    taken += !old && at;
    return at;
}

void __wrap_free(void *at) {
    taken -= at != 0;
    __real_free(at);
}

static uint8_t input[GKR_CASE_LIMIT + 1], reply[GKR_CASE_LIMIT], whole[GKR_CASE_LIMIT];
static size_t size, wanted;

static uint8_t run(const char *command, uint32_t choice, uint8_t *to, size_t *needed) {
    if (!strcmp(command, "eval")) return gkr_c_eval(input, size, to, sizeof reply, needed);
    if (!strcmp(command, "circuit")) return gkr_c_circuit(input, size, to, sizeof reply, needed);
    if (!strcmp(command, "prove"))
        return gkr_c_prove(choice, input, size, to, sizeof reply, needed);
    if (!strcmp(command, "verify")) return gkr_c_verify(input, size, to, sizeof reply, needed);
    if (!strcmp(command, "audit")) return gkr_c_audit(input, size, to, sizeof reply, needed);
    if (!strcmp(command, "convert"))
        return gkr_c_convert(choice, input, size, to, sizeof reply, needed);
    if (!strcmp(command, "run"))
        return gkr_c_run((const uint8_t *)"verify", 6, input, size, to, sizeof reply, needed);
    exit(2);
}

static int is_right(uint8_t status, uint8_t due, size_t needed) {
    if (status == GKR_MEMORY) return needed == 0;
    if (status == GKR_WRITE_FAULT) return needed < wanted && !memcmp(reply, whole, needed);
    return status == due && needed == wanted && !memcmp(reply, whole, wanted);
}

int main(int argc, char **argv) {
    if (argc < 2) return 2;
    uint32_t choice = argc > 2 ? (uint32_t)atoi(argv[2]) : 0;
    size = fread(input, 1, sizeof input, stdin);
    taken = 0;
    uint8_t due = run(argv[1], choice, whole, &wanted);
    long counts[256] = {0}, refusals = 0;
    if (taken) return printf("%s keeps %ld blocks\n", argv[1], taken), 1;
    for (on = 0; on < 2; on++)
        for (long number = 0;; number++) {
            size_t needed = 0;
            left = number, refused = 0;
            uint8_t status = run(argv[1], choice, reply, &needed);
            left = -1;
            if (taken)
                return printf("%s: refusal %ld keeps %ld blocks\n", argv[1], number, taken), 1;
            if (!is_right(status, due, needed))
                return printf("%s: refusal %ld ends with %d and %zu bytes\n", argv[1], number,
                              status, needed),
                       1;
            if (!refused) break;
            counts[status]++;
            refusals++;
        }
    printf("%s: %ld refusals, of which", argv[1], refusals);
    for (int status = 0; status < 256; status++)
        if (counts[status]) printf(" %ld end with %d", counts[status], status);
    printf("\n");
    return 0;
}
