// A plain Bellman-Ford over the constraints of a file: each round goes over the whole list, until nothing changes
// or there were as many rounds as variables and one more. Prints its answer, and how long each of some runs took.
#include <stdint.h>
#include <stdio.h>
#include <stdlib.h>
#include <time.h>

struct diff { uint32_t x, y; int64_t c; };

static int solve(uint32_t n, const struct diff *list, size_t len, int64_t *values) {
    for (uint32_t i = 0; i < n; i++) values[i] = 0;
    for (uint32_t round = 0; round <= n; round++) {
        int raised = 0;
        for (size_t i = 0; i < len; i++) {
            int64_t least = values[list[i].x] - list[i].c;
            if (values[list[i].y] < least) { values[list[i].y] = least; raised = 1; }
        }
        if (!raised) return 1;
    }
    return 0;
}

int main(int argc, char **argv) {
    FILE *file = argc == 2 ? fopen(argv[1], "r") : NULL;
    uint32_t n;
    if (!file || fscanf(file, "%u", &n) != 1 || n > 768) return 2;
    struct diff *list = malloc(65536 * sizeof *list);
    int64_t values[768];
    size_t len = 0;
    while (len < 65536 && fscanf(file, "%u %u %ld", &list[len].x, &list[len].y, &list[len].c) == 3) len++;
    for (int time = 0; time < 7; time++) {
        struct timespec from, to;
        clock_gettime(CLOCK_MONOTONIC, &from);
        int least = solve(n, list, len, values);
        clock_gettime(CLOCK_MONOTONIC, &to);
        if (least) {
            printf("least [");
            for (uint32_t i = 0; i < n; i++) printf(i ? ", %ld" : "%ld", values[i]);
            printf("]\n");
        } else printf("cycle\n");
        printf("took %ld\n", (to.tv_sec - from.tv_sec) * 1000000000L + to.tv_nsec - from.tv_nsec);
    }
    return 0;
}
