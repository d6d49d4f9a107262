/* The loop of crates/measures/src/graphs.rt in C: a closed table of distances over 12 names, which is asked for
 * each literal whether it is allowed, and takes those that are. Prints how many were taken.
 *
 * usage: graph_rate bounds COUNT ROUNDS
 */
#include <stdbool.h>
#include <stdint.h>
#include <stdio.h>
#include <stdlib.h>
#include <string.h>

enum { NAMES = 12 };

struct lit {
    uint8_t x, y;
    int32_t k;
};

struct hop {
    bool kept;
    int32_t k;
    uint32_t number;
    uint8_t second;
};

struct bounds {
    struct hop rows[NAMES][NAMES];
};

static uint32_t state = 1;

static uint32_t next(uint32_t count) {
    state = state * 1664525u + 1013904223u;
    return (state >> 8) % count;
}

static struct lit literal(uint32_t less) {
    struct lit lit;
    lit.x = next(NAMES);
    lit.y = next(NAMES);
    lit.k = 70 * lit.x - 70 * lit.y + (int32_t)next(201) - (int32_t)less;
    return lit;
}

static void clear(struct bounds *bounds) {
    memset(bounds, 0, sizeof *bounds);
    for (int x = 0; x < NAMES; x++) {
        bounds->rows[x][x].kept = true;
        bounds->rows[x][x].second = x;
    }
}

static bool allows(const struct bounds *bounds, struct lit lit) {
    const struct hop *back = &bounds->rows[lit.x][lit.y];
    return !back->kept || back->k + lit.k >= 0;
}

static void add(struct bounds *bounds, struct lit lit, uint32_t number) {
    const struct hop *own = &bounds->rows[lit.y][lit.x];
    if (own->kept && own->k <= lit.k)
        return;
    struct hop ways[NAMES];
    memcpy(ways, bounds->rows[lit.x], sizeof ways);
    for (int x = 0; x < NAMES; x++) {
        if (!ways[x].kept)
            continue;
        ways[x].k += lit.k;
        if (x == lit.x) {
            ways[x].number = number;
            ways[x].second = lit.y;
        }
    }
    for (int y = 0; y < NAMES; y++) {
        struct hop *row = bounds->rows[y];
        struct hop rest = row[lit.y];
        if (!rest.kept)
            continue;
        for (int x = 0; x < NAMES; x++) {
            if (!ways[x].kept)
                continue;
            int32_t k = ways[x].k + rest.k;
            if (!row[x].kept || k < row[x].k) {
                row[x] = ways[x];
                row[x].k = k;
            }
        }
    }
}

int main(int argc, char **argv) {
    if (argc != 4 || strcmp(argv[1], "bounds") != 0)
        return 2;
    size_t count = strtoul(argv[2], NULL, 10);
    size_t rounds = strtoul(argv[3], NULL, 10);
    struct lit *lits = malloc((count + 1) * sizeof *lits);
    if (lits == NULL)
        return 10;
    for (size_t place = 0; place < count; place++)
        lits[place] = literal(20);
    uint32_t taken = 0;
    struct bounds empty;
    clear(&empty);
    for (size_t round = 0; round < rounds; round++) {
        struct bounds bounds = empty;
        for (size_t place = 0; place < count; place++) {
            if (allows(&bounds, lits[place])) {
                add(&bounds, lits[place], place);
                taken++;
            }
        }
    }
    printf("%u\n", taken);
    free(lits);
    return 0;
}
