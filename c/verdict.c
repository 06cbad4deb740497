/* verdict: the panel's build tool in small. Reads two formula files (a line feed at the end is a
   blank of the term), compares them over the row and prints the verdict. */
#include "program.h"
#include <errno.h>

static const char help[] =
    "verdict ROW LEFT-FILE RIGHT-FILE    are the two formulas the same polynomial over the row?\n"
    "verdict --help, verdict --version\n"
    "\n"
    "Prints SAME; or DIFF, a point and the two remainders there; or REFUSED, a number, the side\n"
    "and a place. Ends with status 0 same, 1 different, 2 refused, 3 no verdict could be had.\n";

/* one byte more than a term may have, so that an over-long file is refused as such */
#define MOST 4097

static uint32_t a[PANEL_TABLE], b[PANEL_TABLE], c[PANEL_TABLE], d[PANEL_TABLE];
static uint8_t left[MOST], right[MOST];

/* The file's first bytes, at most MOST; 0 where it cannot be read. */
static int load(const char *name, uint8_t *text, size_t *length) {
    FILE *file = fopen(name, "rb");
    int whole = 0;
    if (file) {
        *length = fread(text, 1, MOST, file);
        whole = !ferror(file);
    }
    if (!whole) {
        fprintf(stderr, "verdict: %s: %s\n", name, strerror(errno));
    }
    if (file) {
        fclose(file);
    }
    return whole;
}

/* Prints the verdict over a row of `count` letters, and returns its status. */
static int print(panel_answer answer, const uint32_t *point, size_t count) {
    static const char *const sides[] = {"neither", "left", "right"};
    size_t i;
    if (answer.kind == PANEL_FINE) {
        printf("SAME\n");
        return ALL_SAME;
    }
    if (answer.kind == PANEL_DIFFERENT) {
        printf("DIFF");
        for (i = 0; i < count; i++) {
            printf(" %u", (unsigned)point[i]);
        }
        printf(" %u %u\n", (unsigned)answer.left, (unsigned)answer.right);
        return SOME_DIFFERENT;
    }
    printf("REFUSED %u %s %lu\n", (unsigned)answer.number, sides[answer.side],
           (unsigned long)answer.place);
    return SOME_REFUSED;
}

int main(int count, char **words) {
    uint32_t point[4];
    size_t left_length, right_length, row_length;
    panel_answer answer;
    if (answered("verdict", help, count, words)) {
        return finish("verdict", 0);
    }
    if (count != 4) {
        fputs(help, stderr);
        return NO_VERDICT;
    }
    if (!load(words[2], left, &left_length) || !load(words[3], right, &right_length)) {
        return NO_VERDICT;
    }
    row_length = strlen(words[1]);
    answer = panel_compare((const uint8_t *)words[1], row_length, left, left_length, right,
                           right_length, point, 4, a, PANEL_TABLE, b, PANEL_TABLE, c, PANEL_TABLE,
                           d, PANEL_TABLE);
    return finish("verdict", print(answer, point, row_length));
}
