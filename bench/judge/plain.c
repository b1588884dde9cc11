/* A plain checker of LRAT additions, to compare with. It makes the same formula and the same log as program.txt, or writes a certificate
   with that log, or reads one, and prints the time of the check.
   Usage: plain walk|make|text LINES GATES. */
#include <stdint.h>
#include <stdio.h>
#include <stdlib.h>
#include <string.h>
#include <time.h>

struct lists {
    uint32_t *data;
    size_t *start;
    size_t used, space, count, slots;
};

static void *grown(void *p, size_t bytes) {
    void *q = realloc(p, bytes);
    if (!q) exit(9);
    return q;
}

static void begin(struct lists *l) {
    if (l->count + 2 > l->slots) {
        l->slots = l->slots ? 2 * l->slots : 1024;
        l->start = grown(l->start, l->slots * sizeof *l->start);
    }
    l->start[l->count++] = l->used;
    l->start[l->count] = l->used;
}

static void put(struct lists *l, uint32_t x) {
    if (l->used == l->space) {
        l->space = l->space ? 2 * l->space : 1024;
        l->data = grown(l->data, l->space * sizeof *l->data);
    }
    l->data[l->used++] = x;
    l->start[l->count] = l->used;
}

static struct lists formula, lits, hints;
static uint32_t *ids;
static size_t made, id_slots;
static uint8_t *is_false;
static uint32_t *trail;
static size_t trailed;

static void clause(int count, uint32_t a, uint32_t b, uint32_t c) {
    uint32_t all[3] = {a, b, c};
    begin(&formula);
    for (int k = 0; k < count; k++) put(&formula, all[k]);
}

/* Variable 2 is x, 3 is t at the beginning, and k + 4 gate k, which is x and the gate before it; the last one is gate `gates` and not t. */
static void make_formula(uint32_t gates) {
    clause(1, 2, 0, 0);
    for (uint32_t k = 1; k <= gates; k++) {
        uint32_t g = k + 4, before = k == 1 ? 3 : k + 3;
        clause(2, 2 * g + 1, 2 * 2, 0);
        clause(2, 2 * g + 1, 2 * before, 0);
        clause(3, 2 * g, 2 * 2 + 1, 2 * before + 1);
    }
    uint32_t h = gates + 5, g = gates + 4;
    clause(2, 2 * h + 1, 2 * 3 + 1, 0);
    clause(2, 2 * h + 1, 2 * g, 0);
    clause(3, 2 * h, 2 * 3, 2 * g + 1);
    clause(1, 2 * h, 0, 0);
}

static void begin_line(uint32_t id) {
    if (made == id_slots) {
        id_slots = id_slots ? 2 * id_slots : 1024;
        ids = grown(ids, id_slots * sizeof *ids);
    }
    ids[made++] = id;
    begin(&lits);
    begin(&hints);
}

static void make_log(uint32_t gates, uint32_t lines) {
    uint32_t seed = 1;
    for (uint32_t k = 0; k < lines; k++) {
        uint32_t length = k % 2 == 0 ? 2 : 50;
        seed = 1664525u * seed + 1013904223u;
        uint32_t i = length + 1 + seed % (gates - length);
        begin_line(3 * gates + 6 + k);
        put(&lits, 2 * (i + 4) + 1);
        put(&lits, 2 * (i - length + 4));
        for (uint32_t n = 0; n < length; n++) put(&hints, 3 * (i - n));
    }
    begin_line(3 * gates + 6 + lines);
    put(&hints, 3 * gates + 5);
    put(&hints, 3 * gates + 2);
    put(&hints, 3 * gates + 3);
    for (uint32_t n = 0; n < gates; n++) put(&hints, 3 * (gates - n));
}

static void write_certificate(void) {
    printf("PLCVCERT 1\nverdict satisfied 0\nquery step 0\nchain\nlog %zu\n", made);
    for (size_t n = 0; n < made; n++) {
        printf("%u", ids[n]);
        for (size_t j = lits.start[n]; j < lits.start[n + 1]; j++)
            printf(lits.data[j] % 2 ? " -%u" : " %u", lits.data[j] / 2);
        printf(" 0");
        for (size_t j = hints.start[n]; j < hints.start[n + 1]; j++) printf(" %u", hints.data[j]);
        printf(" 0\n");
    }
    printf("end\n");
}

static char *text;

/* The next number, which one blank or line feed follows. */
static long next(void) {
    int negated = *text == '-';
    long n = 0;
    text += negated;
    if (*text < '0' || *text > '9') exit(8);
    while (*text >= '0' && *text <= '9') n = 10 * n + (*text++ - '0');
    if (*text++ == 0) exit(8);
    return negated ? -n : n;
}

static void read_log(void) {
    const char *head = "PLCVCERT 1\nverdict satisfied 0\nquery step 0\nchain\nlog ";
    if (strncmp(text, head, strlen(head))) exit(8);
    text += strlen(head);
    long count = next();
    for (long n = 0; n < count; n++) {
        begin_line((uint32_t)next());
        for (long x = next(); x; x = next()) put(&lits, x < 0 ? 2 * (uint32_t)-x + 1 : 2 * (uint32_t)x);
        for (long x = next(); x; x = next()) put(&hints, (uint32_t)x);
    }
    if (strcmp(text, "end\n")) exit(8);
}

static char *read_all(void) {
    size_t used = 0, space = 1 << 20;
    char *all = grown(NULL, space);
    for (size_t n; (n = fread(all + used, 1, space - used - 1, stdin)) > 0;) {
        used += n;
        if (space - used < 2) all = grown(all, space *= 2);
    }
    all[used] = 0;
    return all;
}

static void make_false(uint32_t lit) {
    is_false[lit] = 1;
    trail[trailed++] = lit;
}

/* 0 where line n follows, else the number of its fault. */
static int fault(uint32_t variables, size_t n) {
    if (ids[n] != formula.count + n + 1) return 1;
    for (size_t j = lits.start[n]; j < lits.start[n + 1]; j++) {
        uint32_t lit = lits.data[j];
        if (lit < 2 || lit / 2 > variables || is_false[lit] || is_false[lit ^ 1]) return 5;
        make_false(lit);
    }
    size_t last = hints.start[n + 1];
    for (size_t j = hints.start[n]; j < last; j++) {
        size_t id = hints.data[j];
        if (id == 0 || id > formula.count + n) return 2;
        const struct lists *from = id <= formula.count ? &formula : &lits;
        size_t at = id <= formula.count ? id - 1 : id - formula.count - 1;
        uint32_t unset = 0;
        int more = 0;
        for (size_t m = from->start[at]; m < from->start[at + 1]; m++) {
            uint32_t lit = from->data[m];
            if (is_false[lit]) continue;
            if (unset) { more = 1; break; }
            unset = lit;
        }
        if (j + 1 == last) return unset ? 4 : 0;
        if (more || !unset || is_false[unset ^ 1]) return 3;
        make_false(unset ^ 1);
    }
    return 4;
}

static int check(uint32_t gates) {
    uint32_t variables = gates + 5;
    int wrong = 0;
    make_formula(gates);
    is_false = calloc(2 * (size_t)variables + 2, 1);
    trail = grown(NULL, (size_t)variables * sizeof *trail);
    if (!is_false) exit(9);
    for (size_t n = 0; n < made && !wrong; n++) {
        wrong = fault(variables, n);
        while (trailed) is_false[trail[--trailed]] = 0;
    }
    return wrong || !made || lits.start[made] != lits.start[made - 1];
}

int main(int count, char **words) {
    if (count != 4) return 5;
    uint32_t lines = (uint32_t)strtoul(words[2], NULL, 10), gates = (uint32_t)strtoul(words[3], NULL, 10);
    if (*words[1] == 't') text = read_all();
    else make_log(gates, lines);
    if (*words[1] == 'm') {
        write_certificate();
        return 0;
    }
    struct timespec from, to;
    clock_gettime(CLOCK_MONOTONIC, &from);
    if (text) read_log();
    int wrong = check(gates);
    clock_gettime(CLOCK_MONOTONIC, &to);
    double ms = (to.tv_sec - from.tv_sec) * 1e3 + (to.tv_nsec - from.tv_nsec) / 1e6;
    printf("%s ms %.0f\n", wrong ? "refused" : "valid", ms);
    return 0;
}
