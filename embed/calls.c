/* Calls the library as the program is called: calls eval|circuit|verify|audit < INPUT, calls
 * prove|convert NUMBER < INPUT. It writes the reply and ends with the number that the call
 * returned; from 100 on it ends where something else went wrong. */
#include "gkr.h"
#include <stdio.h>
#include <stdlib.h>
#include <string.h>

static uint8_t input[GKR_CASE_LIMIT + 2], reply[GKR_CASE_LIMIT];

static uint8_t run(const char *command, uint32_t choice, size_t size, size_t *needed) {
    if (!strcmp(command, "eval")) return gkr_c_eval(input, size, reply, sizeof reply, needed);
    if (!strcmp(command, "circuit")) return gkr_c_circuit(input, size, reply, sizeof reply, needed);
    if (!strcmp(command, "prove"))
        return gkr_c_prove(choice, input, size, reply, sizeof reply, needed);
    if (!strcmp(command, "verify")) return gkr_c_verify(input, size, reply, sizeof reply, needed);
    if (!strcmp(command, "audit")) return gkr_c_audit(input, size, reply, sizeof reply, needed);
    if (!strcmp(command, "convert"))
        return gkr_c_convert(choice, input, size, reply, sizeof reply, needed);
    exit(100);
}

int main(int argc, char **argv) {
    if (argc < 2) return 100;
    size_t needed, size = fread(input, 1, sizeof input - 1, stdin);
    uint8_t status = run(argv[1], argc > 2 ? (uint32_t)atoi(argv[2]) : 0, size, &needed);
    return needed <= sizeof reply && fwrite(reply, 1, needed, stdout) == needed ? status : 101;
}
