/* What the C programs share: their statuses, --help and --version, and whether all that they
   printed was written. */
#ifndef PROGRAM_H
#define PROGRAM_H
#include "../include/panel.h"
#include <stdio.h>
#include <string.h>

/* those of tools/print-book.sh */
enum { ALL_SAME = 0, SOME_DIFFERENT = 1, SOME_REFUSED = 2, NO_VERDICT = 3 };

/* The status to end with: `status`, or NO_VERDICT where what was printed could not be written. */
static int finish(const char *name, int status) {
    if (fflush(stdout) != 0 || ferror(stdout)) {
        fprintf(stderr, "%s: the answer was not written\n", name);
        return NO_VERDICT;
    }
    return status;
}

/* Answers a call with --help or --version alone; 0 where the words are others. */
static int answered(const char *name, const char *help, int count, char **words) {
    if (count != 2) {
        return 0;
    }
    if (strcmp(words[1], "--help") == 0) {
        fputs(help, stdout);
        return 1;
    }
    if (strcmp(words[1], "--version") == 0) {
        printf("%s %s\n", name, PANEL_VERSION);
        return 1;
    }
    return 0;
}

#endif
