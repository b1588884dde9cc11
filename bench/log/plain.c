/* A plain checker of LRAT additions, to compare with. It makes the same formula and the same log as
   program.txt, checks the log and prints the time.
   Usage: plain LINES. */
#include <stdint.h>
#include <stdio.h>
#include <stdlib.h>
#include <time.h>

struct lists {
    uint32_t *data;
    size_t *start;
    size_t used, space, count, slots;
};

static void *grown(void *p, size_t bytes) {
    void *q = realloc(p, bytes);
    if (!q) exit(9);
    return q;
}

static void begin(struct lists *l) {
    if (l->count + 2 > l->slots) {
        l->slots = l->slots ? 2 * l->slots : 1024;
        l->start = grown(l->start, l->slots * sizeof *l->start);
    }
    l->start[l->count++] = l->used;
    l->start[l->count] = l->used;
}

static void put(struct lists *l, uint32_t x) {
    if (l->used == l->space) {
        l->space = l->space ? 2 * l->space : 1024;
        l->data = grown(l->data, l->space * sizeof *l->data);
    }
    l->data[l->used++] = x;
    l->start[l->count] = l->used;
}

static struct lists formula, lits, hints;
static uint32_t *ids;
static uint8_t *is_false;
static uint32_t *trail;
static size_t trailed;

static void make(uint32_t variables, uint32_t lines) {
    begin(&formula);
    put(&formula, 2);
    for (uint32_t i = 1; i < variables; i++) {
        begin(&formula);
        put(&formula, 2 * i + 1);
        put(&formula, 2 * (i + 1));
    }
    begin(&formula);
    put(&formula, 2 * variables + 1);
    ids = grown(NULL, ((size_t)lines + 1) * sizeof *ids);
    uint32_t seed = 1;
    for (uint32_t k = 0; k < lines; k++) {
        uint32_t length = k % 2 == 0 ? 2 : 50;
        seed = 1664525u * seed + 1013904223u;
        uint32_t i = 1 + seed % (variables - length);
        ids[k] = variables + 1 + k + 1;
        begin(&lits);
        put(&lits, 2 * i + 1);
        put(&lits, 2 * (i + length));
        begin(&hints);
        for (uint32_t h = 1; h <= length; h++) put(&hints, i + h);
    }
    ids[lines] = variables + 1 + lines + 1;
    begin(&lits);
    begin(&hints);
    for (uint32_t h = 1; h <= variables + 1; h++) put(&hints, h);
}

static void make_false(uint32_t lit) {
    is_false[lit] = 1;
    trail[trailed++] = lit;
}

/* 0 where line n follows, else the number of its fault. */
static int fault(uint32_t variables, size_t n) {
    if (ids[n] != formula.count + n + 1) return 1;
    for (size_t j = lits.start[n]; j < lits.start[n + 1]; j++) {
        uint32_t lit = lits.data[j];
        if (lit < 2 || lit / 2 > variables || is_false[lit] || is_false[lit ^ 1]) return 5;
        make_false(lit);
    }
    size_t last = hints.start[n + 1];
    for (size_t j = hints.start[n]; j < last; j++) {
        size_t id = hints.data[j];
        if (id == 0 || id > formula.count + n) return 2;
        const struct lists *from = id <= formula.count ? &formula : &lits;
        size_t at = id <= formula.count ? id - 1 : id - formula.count - 1;
        uint32_t unset = 0;
        int more = 0;
        for (size_t m = from->start[at]; m < from->start[at + 1]; m++) {
            uint32_t lit = from->data[m];
            if (is_false[lit]) continue;
            if (unset) { more = 1; break; }
            unset = lit;
        }
        if (j + 1 == last) return unset ? 4 : 0;
        if (more || !unset || is_false[unset ^ 1]) return 3;
        make_false(unset ^ 1);
    }
    return 4;
}

int main(int count, char **words) {
    uint32_t lines = count > 1 ? (uint32_t)strtoul(words[1], NULL, 10) : 1000;
    uint32_t variables = lines < 1000 ? 1000 : lines;
    make(variables, lines);
    is_false = calloc(2 * (size_t)variables + 2, 1);
    trail = malloc((size_t)variables * sizeof *trail);
    if (!is_false || !trail) return 9;
    struct timespec from, to;
    clock_gettime(CLOCK_MONOTONIC, &from);
    int wrong = 0;
    for (size_t n = 0; n <= lines && !wrong; n++) {
        wrong = fault(variables, n);
        while (trailed) is_false[trail[--trailed]] = 0;
    }
    clock_gettime(CLOCK_MONOTONIC, &to);
    double ms = (to.tv_sec - from.tv_sec) * 1e3 + (to.tv_nsec - from.tv_nsec) / 1e6;
    printf("%s hints %zu ms %.0f\n", wrong ? "refused" : "accepted", hints.used, ms);
    return 0;
}
