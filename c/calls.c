/* calls: calls every function of the panel's library as a C program does, and says what came back:
   results, buffers, tables, null pointers. */
#include "program.h"

static const char help[] =
    "calls    calls every function of the panel's library and prints what came back\n"
    "calls --help, calls --version\n";

/* a table longer than the fixed length: it is cleared to its end */
static uint32_t a[PANEL_TABLE + 7], b[PANEL_TABLE], c[PANEL_TABLE], d[PANEL_TABLE];

static void fill(void) {
    memset(a, 0xff, sizeof a);
    memset(b, 0xff, sizeof b);
    memset(c, 0xff, sizeof c);
    memset(d, 0xff, sizeof d);
}

/* how many words of the tables are not 0 */
static unsigned dirty(void) {
    unsigned n = 0;
    size_t i;
    for (i = 0; i < PANEL_TABLE + 7; i++) {
        n += a[i] != 0;
    }
    for (i = 0; i < PANEL_TABLE; i++) {
        n += (b[i] != 0) + (c[i] != 0) + (d[i] != 0);
    }
    return n;
}

static void say(const char *what, panel_answer r) {
    printf("%s: %u %u %u %u %u %lu, dirty %u\n", what, (unsigned)r.kind, (unsigned)r.number,
           (unsigned)r.side, (unsigned)r.left, (unsigned)r.right, (unsigned long)r.place, dirty());
}

#define TEXT(s) (const uint8_t *)(s), strlen(s)
#define TABLES a, PANEL_TABLE + 7, b, PANEL_TABLE, c, PANEL_TABLE, d, PANEL_TABLE

int main(int count, char **words) {
    uint32_t point[3] = {7, 7, 7};
    uint8_t result[40];
    int32_t at[2] = {-3, 2};
    if (answered("calls", help, count, words)) {
        return finish("calls", 0);
    }
    if (count != 1) {
        fputs(help, stderr);
        return NO_VERDICT;
    }
    memset(result, '.', sizeof result);
    fill();
    say("same", panel_compare(TEXT("XY"), TEXT("(* (+ X Y) (- X Y))"),
                              TEXT("(- (EXPT X 2) (EXPT Y 2))"), point, 3, TABLES));
    fill();
    say("different", panel_compare(TEXT("XY"), TEXT("(* X Y)"), TEXT("0"), point, 3, TABLES));
    printf("point %u %u %u\n", (unsigned)point[0], (unsigned)point[1], (unsigned)point[2]);
    fill();
    say("right refused", panel_compare(TEXT("XY"), TEXT("1"), TEXT("(+ X Y Z)"), point, 3, TABLES));
    fill();
    say("point short", panel_compare(TEXT("XY"), TEXT("1"), TEXT("1"), point, 1, TABLES));
    say("row", panel_compare(TEXT("XX"), TEXT("1"), TEXT("1"), point, 3, TABLES));
    say("table short", panel_compare(TEXT("XY"), TEXT("1"), TEXT("1"), point, 3, a, PANEL_TABLE, b,
                                     PANEL_TABLE, c, PANEL_TABLE, d, PANEL_TABLE - 1));
    say("form", panel_form(TEXT("XY"), TEXT("(* (+ X Y) (- X Y))"), result, sizeof result, TABLES));
    printf("result %.40s\n", (const char *)result);
    say("form too long", panel_form(TEXT("XY"), TEXT("Y"), result, 18, TABLES));
    printf("result %.40s\n", (const char *)result);
    say("remainder", panel_remainder(TEXT("XY"), TEXT("(+ (EXPT X 3) Y)"), at, 2, TABLES));
    say("other length", panel_remainder(TEXT("X"), TEXT("X"), at, 2, TABLES));
    say("null", panel_compare(0, 0, 0, 0, 0, 0, 0, 0, 0, 0, 0, 0, 0, 0, 0, 0));
    say("empty terms", panel_compare(TEXT("X"), 0, 0, 0, 0, point, 3, TABLES));
    return finish("calls", 0);
}
