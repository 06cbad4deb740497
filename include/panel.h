/* The panel's calls, for C and C++. A slice is a pointer and its length in elements; a null pointer
   with length 0 is fine. Nothing need be checked beforehand: every input has an answer, and bad
   input is refused by number and place. Link libpanel.a (`make lib`; x86-64). */
#ifndef PANEL_H
#define PANEL_H
#include <stddef.h>
#include <stdint.h>

#define PANEL_VERSION "0.1.0"

/* Each of the four work tables needs at least this many words. They may hold anything; after a call
   they hold zeros over their whole length, but where 1 or 2 is refused they are as they were. */
#define PANEL_TABLE 16384

/* The longest text of a form has fewer bytes than this. */
#define PANEL_RESULT 65535

#ifdef __cplusplus
extern "C" {
#endif

enum { PANEL_FINE = 0, PANEL_DIFFERENT = 1, PANEL_REFUSED = 2 };
enum { PANEL_NEITHER = 0, PANEL_LEFT = 1, PANEL_RIGHT = 2 };

/* The numbers of refusals (docs/refusals.md has them with the commonest mistakes):
     1  row not 1 to 4 distinct letters A to Z
     2  a work table under PANEL_TABLE words, or the point buffer under the row's length
     3  term over 4,096 bytes
     4  not a term
     5  a capital letter not in the row, where a letter may stand
     6  a parenthesis opened beyond the limit of 16
     8  exponent or degree above 63
     9  weight above 1,073,741,823
    10  more than 256 terms
    11  result text longer than the lent result buffer
    12  point to evaluate at has another length than the row */
typedef struct {
    uint32_t kind;   /* PANEL_FINE: same, text written, or a remainder; or one of the other two */
    uint32_t number; /* of a refusal; else 0 */
    uint32_t side;   /* of a refusal: PANEL_LEFT (also for a call with one text), PANEL_RIGHT, or
                        PANEL_NEITHER: 1, 2, 11 and 12 */
    uint32_t left;   /* PANEL_DIFFERENT: the left term's remainder at the point;
                        panel_remainder: the remainder */
    uint32_t right;  /* PANEL_DIFFERENT: the right term's remainder at the point */
    size_t place;    /* of a refusal: bytes from 0 in the refused text;
                        panel_form: the length of the text */
} panel_answer;

/* Are two terms the same polynomial? PANEL_FINE: they are. PANEL_DIFFERENT: the first point at
   which their remainders by 2,147,483,647 differ stands in the first row_length numbers of point,
   the remainders in left and right. Else point is as it was.
   Refuses: 1, 2; then the left term by 3, 4, 5, 6, 8, 9, 10; then the right term likewise. */
panel_answer panel_compare(const uint8_t *row, size_t row_length,     /* the variables' letters */
                           const uint8_t *left, size_t left_length,   /* the left term */
                           const uint8_t *right, size_t right_length, /* the right term */
                           uint32_t *point, size_t point_length,      /* row_length or more */
                           uint32_t *a, size_t a_length,              /* the four work tables */
                           uint32_t *b, size_t b_length,
                           uint32_t *c, size_t c_length,
                           uint32_t *d, size_t d_length);

/* The text of a term's form, in the first `place` bytes of result; what lies behind them, and all
   of result where the call is refused, is as it was.
   Refuses: 1, 2; then the term by 3, 4, 5, 6, 8, 9, 10; then 11. */
panel_answer panel_form(const uint8_t *row, size_t row_length,
                        const uint8_t *term, size_t term_length,
                        uint8_t *result, size_t result_length, /* PANEL_RESULT is always enough */
                        uint32_t *a, size_t a_length,
                        uint32_t *b, size_t b_length,
                        uint32_t *c, size_t c_length,
                        uint32_t *d, size_t d_length);

/* The remainder by 2,147,483,647 of a term's value at a point of signed coordinates, one for each
   letter of the row, in `left`.
   Refuses: 1, 2, 12; then the term by 3, 4, 5, 6, 8, 9, 10. */
panel_answer panel_remainder(const uint8_t *row, size_t row_length,
                             const uint8_t *term, size_t term_length,
                             const int32_t *point, size_t point_length,
                             uint32_t *a, size_t a_length,
                             uint32_t *b, size_t b_length,
                             uint32_t *c, size_t c_length,
                             uint32_t *d, size_t d_length);

#ifdef __cplusplus
}
#endif
#endif
