/* The example's sheet on an empty book, from C: reads a sheet, writes its lines. */
#include <stdio.h>
#include "stringmoss.h"

static uint64_t book[STRINGMOSS_WORDS];
static uint8_t sheet[STRINGMOSS_SHEET + 1], text[STRINGMOSS_TEXT];

int main(void) {
    uint64_t line, start, length, written;
    size_t bytes = fread(sheet, 1, sizeof sheet, stdin);
    uint64_t number = stringmoss_run_sheet(book, STRINGMOSS_WORDS, sheet, bytes, text, sizeof text, &line, &start, &length, &written);
    fwrite(text, 1, (size_t)written, stdout);
    return number == STRINGMOSS_DONE ? 0 : 1;
}
