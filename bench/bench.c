/* How long calls and books take: medians over made books, of one library or of two side by side.
   bench LIBRARY.so [OTHER.so]: for each kind of book the median time of a call, or of an entry of
   the book, in microseconds, in each, and how many times faster the second is. Both are called in
   turn, in one process, on the same texts; the answers must agree. The texts come from a fixed
   seed. archive.sh makes the libraries. */
#define _POSIX_C_SOURCE 199309L
#include "panel.h"
#include <dlfcn.h>
#include <stdio.h>
#include <stdlib.h>
#include <string.h>
#include <time.h>

enum { ENTRIES = 64, TEXT = 4096, MOST = 64, ROUNDS = 41, FIELDS = 8 };

typedef struct { size_t length; uint32_t refused; } bench_answer;
bench_answer bench_print(const uint8_t *book, size_t book_length, uint8_t *out, size_t out_length, uint32_t *a, size_t a_length, uint32_t *b,
                         size_t b_length, uint32_t *c, size_t c_length, uint32_t *d, size_t d_length);
typedef struct {
    __typeof__(&panel_compare) compare;
    __typeof__(&panel_form) form;
    __typeof__(&panel_remainder) remainder;
    __typeof__(&bench_print) print;
} calls;
typedef struct { int exponent[4]; int coefficient; } monomial;
typedef struct { char left[TEXT + 1], right[TEXT + 1]; } entry;

static entry book[ENTRIES];
static uint8_t bytes[65536], page[16384];
static size_t size;
static uint32_t tables[4][PANEL_TABLE];
static const uint8_t row[4] = {'X', 'Y', 'Z', 'W'};

/* ---- the texts */
static uint64_t state = 1;
static int below(int n) { /* xorshift */
    state ^= state << 13, state ^= state >> 7, state ^= state << 17;
    return (int)((state >> 20) % (uint64_t)n);
}
static int cmp(const void *x, const void *y) { return -memcmp(((const monomial *)x)->exponent, ((const monomial *)y)->exponent, sizeof(int[4])); }

static int polynomial(monomial *m, int count, int degree, int variables) { /* at most count monomials, no two alike */
    for (int i = 0; i < count; i++) {
        for (int v = 0; v < 4; v++) m[i].exponent[v] = v < variables ? below(degree + 1) : 0;
        m[i].coefficient = (1 + below(999)) * (below(2) ? 1 : -1);
    }
    qsort(m, (size_t)count, sizeof *m, cmp);
    int k = 0;
    for (int i = 0; i < count; i++)
        if (k == 0 || cmp(&m[k - 1], &m[i]) != 0) m[k++] = m[i];
    return k;
}
static char *power(char *out, int v, int e) {
    return e == 1 ? out + sprintf(out, "%c", row[v]) : out + sprintf(out, "(EXPT %c %d)", row[v], e);
}
static char *product(char *out, const monomial *m) { /* as a report prints it: the coefficient, and then the powers */
    int left = 0;
    for (int v = 0; v < 4; v++) left += m->exponent[v] != 0;
    int open = left;
    if (left) out += sprintf(out, "(* ");
    out += sprintf(out, "%d", m->coefficient);
    for (int v = 0; v < 4; v++)
        if (m->exponent[v]) {
            out += sprintf(out, --left ? " (* " : " ");
            out = power(out, v, m->exponent[v]);
        }
    while (open--) *out++ = ')';
    return *out = 0, out;
}
static char *report(char *out, const monomial *m, int count) { /* the sum of all, halved */
    if (count == 1) return product(out, m);
    out += sprintf(out, "(+ ");
    out = report(out, m, count / 2);
    *out++ = ' ';
    out = report(out, m + count / 2, count - count / 2);
    *out++ = ')';
    return *out = 0, out;
}
static char *nested(char *out, const monomial *m, int count, int v) { /* by powers of the v-th variable, highest first */
    if (v == 4) return out + sprintf(out, "%d", m->coefficient);
    int e = m->exponent[v], same = 1;
    while (same < count && m[same].exponent[v] == e) same++;
    if (same < count) out += sprintf(out, "(+ ");
    if (e) out += sprintf(out, "(* "), out = power(out, v, e), *out++ = ' ';
    out = nested(out, m, same, v + 1);
    if (e) *out++ = ')';
    if (same < count) {
        *out++ = ' ';
        out = nested(out, m + same, count - same, v);
        *out++ = ')';
    }
    return *out = 0, out;
}
static void made(int least, int most, int degree, int variables, int changed) {
    static char text[1 << 16];
    monomial m[MOST];
    for (int i = 0; i < ENTRIES; i++) {
        int open, deep, size = 0, count;
        do {
            count = polynomial(m, least + below(most - least + 1), degree, variables);
            nested(text, m, count, 0);
            open = deep = 0;
            for (const char *s = text; *s; s++) {
                open += (*s == '(') - (*s == ')');
                deep = open > deep ? open : deep;
            }
            size = (int)strlen(text);
        } while (deep > 16 || size > TEXT);
        strcpy(book[i].left, text);
        if (changed) m[below(count)].coefficient += 1;
        report(text, m, count);
        if (strlen(text) > TEXT) abort();
        strcpy(book[i].right, text);
    }
}
static void number16(uint8_t *p, size_t n) { p[0] = (uint8_t)n, p[1] = (uint8_t)(n >> 8); }
static int bound(void) { /* as many entries as fit, as a book: row, their number, fields, bodies */
    int entries = 0;
    size_t at = 6, all = 0;
    while (entries < ENTRIES) {
        size_t more = FIELDS + strlen(book[entries].left) + strlen(book[entries].right);
        if (6 + all + more > 65535) break;
        all += more, entries++;
    }
    bytes[0] = 4, bytes[5] = (uint8_t)entries;
    memcpy(bytes + 1, row, 4);
    at += FIELDS * (size_t)entries;
    for (int i = 0; i < entries; i++)
        for (int k = 0; k < 2; k++) {
            const char *side = k ? book[i].right : book[i].left;
            uint8_t *field = bytes + 6 + FIELDS * i + 4 * k;
            size_t n = strlen(side);
            number16(field, at), number16(field + 2, n);
            memcpy(bytes + at, side, n), at += n;
        }
    size = at;
    return entries;
}
static void repeated(const char *left, const char *right) {
    for (int i = 0; i < ENTRIES; i++) strcpy(book[i].left, left), strcpy(book[i].right, right);
}
static char *falling(char *out, int v, int from, int to) { /* the product of the variable less each of these numbers, halved */
    if (to - from == 1) return from ? out + sprintf(out, "(- %c %d)", row[v], from) : out + sprintf(out, "%c", row[v]);
    out += sprintf(out, "(* ");
    out = falling(out, v, from, (from + to) / 2);
    *out++ = ' ';
    out = falling(out, v, (from + to) / 2, to);
    *out++ = ')';
    return *out = 0, out;
}
static void late(int variables, int until) { /* against 0: they part first where each variable is as great as that */
    char text[TEXT * 2], *out = text;
    for (int v = 0; v < variables; v++) {
        if (v + 1 < variables) out += sprintf(out, "(* ");
        out = falling(out, v, 0, until);
        if (v + 1 < variables) *out++ = ' ';
    }
    for (int v = 1; v < variables; v++) *out++ = ')';
    *out = 0;
    repeated(text, "0");
}
static void slowest(char *out) { /* (+ U (+ U .. 0)), U = (* 0 (+ T (+ T T))), halved until it has 4,063 bytes or less */
    const char *t = "(EXPT (EXPT (* (+ 1 X) (+ 1 Y)) 7) 2)";
    char unit[256];
    sprintf(unit, "(* 0 (+ %s (+ %s %s)))", t, t, t);
    static char level[16][TEXT * 2];
    strcpy(out, unit);
    for (int k = 2; k <= 64; k++) { /* a sum of k units, halved */
        char whole[TEXT * 2] = "";
        int halves[8], n = 0;
        for (int r = k; r > 0; r /= 2) halves[n++] = r & 1;
        strcpy(level[0], unit);
        strcpy(whole, halves[0] ? unit : "");
        for (int j = 1; j < n; j++) {
            if (2 * strlen(level[j - 1]) + 5 > TEXT) return;
            sprintf(level[j], "(+ %s %s)", level[j - 1], level[j - 1]);
            if (!halves[j]) continue;
            if (*whole) {
                char both[TEXT * 2];
                if (strlen(whole) + strlen(level[j]) + 5 > TEXT) return;
                sprintf(both, "(+ %s %s)", whole, level[j]);
                strcpy(whole, both);
            } else
                strcpy(whole, level[j]);
        }
        if (strlen(whole) > TEXT) return;
        strcpy(out, whole);
    }
}

/* ---- the times */
static double now(void) {
    struct timespec t;
    clock_gettime(CLOCK_MONOTONIC, &t);
    return (double)t.tv_sec * 1e6 + (double)t.tv_nsec / 1e3;
}
static int order(const void *x, const void *y) {
    double a = *(const double *)x, b = *(const double *)y;
    return (a > b) - (a < b);
}
#define LENT tables[0], PANEL_TABLE, tables[1], PANEL_TABLE, tables[2], PANEL_TABLE, tables[3], PANEL_TABLE
typedef uint64_t (*one)(const calls *, const entry *);
static uint64_t sum(panel_answer r) { return r.kind + 3 * r.number + 7 * r.side + 11ull * r.left + 13ull * r.right + 17ull * r.place; }
static uint64_t compared(const calls *p, const entry *e) {
    uint32_t point[4] = {0};
    panel_answer r = p->compare(row, 4, (const uint8_t *)e->left, strlen(e->left), (const uint8_t *)e->right, strlen(e->right), point, 4, LENT);
    return sum(r) + 19ull * point[0] + 23ull * point[1] + 29ull * point[2] + 31ull * point[3];
}
static uint64_t formed(const calls *p, const entry *e) {
    static uint8_t result[PANEL_RESULT];
    panel_answer r = p->form(row, 4, (const uint8_t *)e->left, strlen(e->left), result, sizeof result, LENT);
    uint64_t s = sum(r);
    for (size_t i = 0; r.kind == PANEL_FINE && i < r.place; i++) s = s * 31 + result[i];
    return s;
}
static uint64_t remaindered(const calls *p, const entry *e) {
    const int32_t point[4] = {3, -5, 7, 11};
    return sum(p->remainder(row, 4, (const uint8_t *)e->left, strlen(e->left), point, 4, LENT));
}
static uint64_t printed(const calls *p, const entry *e) { /* the whole book */
    (void)e;
    bench_answer r = p->print(bytes, size, page, sizeof page, LENT);
    uint64_t s = r.length + 7 * r.refused;
    for (size_t i = 0; i < r.length; i++) s = s * 31 + page[i];
    return s;
}
static void timed(const char *name, one call, const calls *p, int archives, int times, int entries) { /* each time so many entries */
    static double took[2][ROUNDS];
    double median[2] = {0, 0};
    uint64_t answers[2] = {0, 0};
    for (int r = 0; r < ROUNDS; r++)
        for (int k = 0; k < archives; k++) {
            double start = now();
            uint64_t s = 0;
            for (int i = 0; i < times; i++) s = s * 1000003 + call(&p[k], &book[i]);
            took[k][r] = (now() - start) / times / entries;
            answers[k] = s;
        }
    if (archives == 2 && answers[0] != answers[1]) {
        printf("%s: the answers differ\n", name);
        exit(1);
    }
    for (int k = 0; k < archives; k++) qsort(took[k], ROUNDS, sizeof(double), order), median[k] = took[k][ROUNDS / 2];
    printf("%-34s %10.1f", name, median[0]);
    if (archives == 2) printf(" %10.1f %8.2f", median[1], median[0] / median[1]);
    printf("\n");
    fflush(stdout);
}
static calls loaded(const char *file) {
    void *l = dlopen(file, RTLD_NOW | RTLD_LOCAL);
    if (!l) {
        fprintf(stderr, "%s\n", dlerror());
        exit(2);
    }
    calls p;
    *(void **)&p.compare = dlsym(l, "panel_compare");
    *(void **)&p.form = dlsym(l, "panel_form");
    *(void **)&p.remainder = dlsym(l, "panel_remainder");
    *(void **)&p.print = dlsym(l, "bench_print");
    if (!p.compare || !p.form || !p.remainder || !p.print) {
        fprintf(stderr, "%s: not a library of archive.sh\n", file);
        exit(2);
    }
    return p;
}

int main(int argc, char **argv) {
    if (argc != 2 && argc != 3) {
        fprintf(stderr, "usage: bench LIBRARY.so [OTHER.so]\n");
        return 2;
    }
    int n = argc - 1;
    calls p[2];
    for (int k = 0; k < n; k++) p[k] = loaded(argv[k + 1]);
    printf("%-34s %10s%s\n", "microseconds, median of 41", n == 2 ? "first" : "", n == 2 ? "     second   faster" : "");
    made(6, 36, 3, 4, 0);
    timed("book: typical, the same", printed, p, n, 1, bound());
    timed("compare: typical, the same", compared, p, n, ENTRIES, 1);
    timed("form: typical", formed, p, n, ENTRIES, 1);
    timed("remainder: typical", remaindered, p, n, ENTRIES, 1);
    made(6, 36, 3, 4, 1);
    timed("book: typical, one differs", printed, p, n, 1, bound());
    timed("compare: typical, one differs", compared, p, n, ENTRIES, 1);
    made(1, 4, 3, 2, 0);
    timed("book: 1 to 4 monomials", printed, p, n, 1, bound());
    timed("compare: 1 to 4 monomials", compared, p, n, ENTRIES, 1);
    timed("form: 1 to 4 monomials", formed, p, n, ENTRIES, 1);
    made(40, 60, 7, 2, 1);
    timed("compare: 60 in X and Y, one differs", compared, p, n, ENTRIES, 1);
    repeated("(EXPT (+ (+ X Y) (+ Z 1)) 5)", "(* (EXPT (+ (+ 1 X) (+ Y Z)) 2) (EXPT (+ (+ Z Y) (+ X 1)) 3))");
    timed("compare: powers of sums", compared, p, n, 8, 1);
    repeated("(EXPT (+ (+ X Y) (+ Z 1)) 5)", "(+ (* (* X Y) Z) (EXPT (+ (+ 1 X) (+ Y Z)) 5))");
    timed("compare: powers of sums, differ", compared, p, n, 8, 1);
    late(1, 12);
    timed("compare: a late point, 12", compared, p, n, ENTRIES, 1);
    late(3, 5);
    timed("compare: a late point, 5 5 5", compared, p, n, ENTRIES, 1);
    late(4, 3);
    timed("compare: a late point, 3 3 3 3", compared, p, n, ENTRIES, 1);
    repeated("(EXPT X 63)", "(* (EXPT X 32) (EXPT X 31))");
    timed("compare: X to the 63rd", compared, p, n, ENTRIES, 1);
    made(6, 36, 3, 4, 0);
    for (int i = 0; i < ENTRIES; i++) book[i].right[strlen(book[i].right) - 1] = 0;
    timed("compare: refused at the end", compared, p, n, ENTRIES, 1);
    char text[TEXT * 2];
    slowest(text);
    repeated(text, text);
    timed("compare: the slowest accepted", compared, p, n, 1, 1);
    return 0;
}
