/* Proves a case and verifies the proof: example FILE.. prints for each file with a case without
 * outputs how long the proved case is, and the verdict on it. */
#include "gkr.h"
#include <stdio.h>
#include <stdlib.h>

static uint8_t input[GKR_CASE_LIMIT + 1], proved[GKR_CASE_LIMIT], verdict[4096];

static int show(const char *path) {
    FILE *file = fopen(path, "rb");
    if (!file) return perror(path), 1;
    size_t size = fread(input, 1, sizeof input, file), needed, length;
    fclose(file);
    uint8_t status = gkr_c_prove(GKR_LINES_2, input, size, proved, sizeof proved, &length);
    if (status != GKR_DONE)
        return printf("%s: %d, %.*s", path, status, (int)length, (char *)proved), 1;
    status = gkr_c_verify(proved, length, verdict, sizeof verdict, &needed);
    printf("%s: %zu bytes, %.*s", path, length, (int)needed, (char *)verdict);
    return status != GKR_DONE;
}

int main(int argc, char **argv) {
    int wrong = 0;
    for (int at = 1; at < argc; at++) wrong += show(argv[at]);
    return wrong != 0;
}
