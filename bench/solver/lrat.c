/* A plain checker of LRAT additions: reads a formula in DIMACS text and a log of lines 'id literals 0 hints 0'.
   Prints 'accepted N' after N lines of which the last is empty, or the first line at fault.
   Usage: lrat FORMULA LOG. */
#include <stdio.h>
#include <stdlib.h>

static int *lits;          /* the literals of all clauses, each clause ended by 0 */
static size_t used, space;
static size_t *starts;     /* by id, from 1, where a clause begins */
static size_t count, slots;
static signed char *value; /* by variable: 1 true, -1 false, 0 none */
static int *trail;
static int variables, set;

static void *grown(void *p, size_t bytes) {
    void *q = realloc(p, bytes);
    if (!q) exit(9);
    return q;
}

static void put(int lit) {
    if (used == space) lits = grown(lits, (space = 2 * space + 1024) * sizeof *lits);
    lits[used++] = lit;
}

static void begin(void) {
    if (count + 2 > slots) starts = grown(starts, (slots = 2 * slots + 1024) * sizeof *starts);
    starts[++count] = used;
}

static int truth(int lit) {
    return lit > 0 ? value[lit] : -value[-lit];
}

/* Makes a literal false. */
static void falsify(int lit) {
    int v = abs(lit);
    value[v] = lit > 0 ? -1 : 1;
    trail[set++] = v;
}

static int refuse(size_t line, const char *why) {
    printf("line %zu: %s\n", line, why);
    return 1;
}

static int read_formula(const char *name) {
    FILE *file = fopen(name, "r");
    int lit, clauses;
    if (!file || fscanf(file, "p cnf %d %d", &variables, &clauses) != 2) return 0;
    for (int n = 0; n < clauses; n++) {
        begin();
        do {
            if (fscanf(file, "%d", &lit) != 1 || abs(lit) > variables) return 0;
            put(lit);
        } while (lit);
    }
    fclose(file);
    return 1;
}

/* Reads the literals of a line and makes them false; the faults are those of the line itself. */
static const char *read_literals(FILE *file) {
    int lit;
    begin();
    do {
        if (fscanf(file, "%d", &lit) != 1) return "it isn't whole";
        if (abs(lit) > variables) return "a variable is out of range";
        put(lit);
        if (lit && truth(lit)) return "a variable stands twice";
        if (lit) falsify(lit);
    } while (lit);
    return NULL;
}

/* Whether the clause is false (0), or which literal is left; the literals are counted up to two. */
static int left_of(size_t id, int *many) {
    int left = 0;
    *many = 0;
    for (int *lit = lits + starts[id]; *lit; lit++) {
        if (truth(*lit) < 0) continue;
        if (left) *many = 1;
        left = *lit;
    }
    return left;
}

/* Follows the hints; the last has to name a false clause. */
static const char *read_hints(FILE *file) {
    long hint;
    int is_false = 0, many;
    while (fscanf(file, "%ld", &hint) == 1) {
        if (hint == 0) return is_false ? NULL : "no clause became false";
        if (is_false) return "a hint stands after a false clause";
        if (hint < 0 || (size_t)hint >= count) return "a hint names no earlier clause";
        int left = left_of(hint, &many);
        if (!left) {
            is_false = 1;
        } else if (many || truth(left)) {
            return "a hint's clause isn't unit";
        } else {
            falsify(-left);
        }
    }
    return "it isn't whole";
}

int main(int words, char **word) {
    if (words < 3 || !read_formula(word[1])) return 2;
    FILE *file = fopen(word[2], "r");
    value = calloc((size_t)variables + 1, 1);
    trail = calloc((size_t)variables + 1, sizeof *trail);
    if (!file || !value || !trail) return 2;
    size_t id, line = 0;
    int empty = 0;
    while (fscanf(file, "%zu", &id) == 1) {
        line++;
        if (id != count + 1) return refuse(line, "its id isn't the next");
        size_t from = used;
        const char *why = read_literals(file);
        if (!why) why = read_hints(file);
        if (why) return refuse(line, why);
        empty = used == from + 1;
        while (set) value[trail[--set]] = 0;
    }
    if (!empty) return refuse(line, "the last isn't empty");
    printf("accepted %zu\n", line);
    return 0;
}
