/* Makes a book from a sheet: reads the sheet's numbers on standard input, in decimal with white space between them, and writes
 * the book to standard output.
 *
 *     host/build
 *     cc -I include examples/write.c target/staticlib/libgate.a -o /tmp/write
 *     /tmp/write < examples/two_companies.sheet > /tmp/two_companies.book
 */
#include <stdio.h>

#include "fares.h"

static uint16_t sheet[FARES_LONGEST_SHEET + 1];
static uint8_t book[FARES_LONGEST_BOOK];

int main(void) {
    size_t length = 0;
    unsigned long number;
    while (length < FARES_LONGEST_SHEET + 1 && scanf("%lu", &number) == 1) {
        if (number > 65535) {
            fprintf(stderr, "number %zu is above 65,535\n", length);
            return 2;
        }
        sheet[length++] = (uint16_t)number;
    }
    uint64_t word = fares_write(sheet, length, book, sizeof book);
    if (FARES_REFUSAL(word) != 0) {
        fprintf(stderr, "refused %u %u\n", FARES_REFUSAL(word), FARES_PLACE(word));
        return 1;
    }
    size_t written = FARES_WRITTEN(word);
    return fwrite(book, 1, written, stdout) == written ? 0 : 2;
}
