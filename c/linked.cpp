// A C++ program that links the panel's library by include/panel.h.
#include <panel.h>
#include <stdio.h>
#include <string.h>

static uint32_t tables[4][PANEL_TABLE];

int main() {
    const char *row = "X", *left = "(- X X)", *right = "0";
    uint32_t point[1];
    panel_answer answer = panel_compare(
        reinterpret_cast<const uint8_t *>(row), strlen(row),
        reinterpret_cast<const uint8_t *>(left), strlen(left),
        reinterpret_cast<const uint8_t *>(right), strlen(right), point, 1, tables[0], PANEL_TABLE,
        tables[1], PANEL_TABLE, tables[2], PANEL_TABLE, tables[3], PANEL_TABLE);
    puts(answer.kind == PANEL_FINE ? "SAME" : "not the same");
    return static_cast<int>(answer.kind);
}
