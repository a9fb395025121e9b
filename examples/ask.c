/* Loads a book from a file and asks for the cheapest route between two stations.
 *
 *     host/build
 *     cc -I include examples/ask.c target/staticlib/libgate.a -o /tmp/ask
 *     xxd -r -p examples/q.hex /tmp/q.book
 *     /tmp/ask /tmp/q.book 0 0 2 0 4
 */
#include <stdio.h>
#include <stdlib.h>

#include "fares.h"

static uint8_t book[FARES_LONGEST_BOOK + 1];

int main(int argc, char **argv) {
    if (argc != 7) {
        fprintf(stderr, "usage: ask BOOK FROM-COMPANY FROM-STATION TO-COMPANY TO-STATION LIMIT\n");
        return 2;
    }
    FILE *file = fopen(argv[1], "rb");
    if (file == NULL) {
        perror(argv[1]);
        return 2;
    }
    size_t length = fread(book, 1, sizeof book, file);
    fclose(file);

    uint8_t asked[5];
    for (int i = 0; i < 5; i++) {
        asked[i] = (uint8_t)atoi(argv[2 + i]);
    }
    uint16_t answer[FARES_ANSWER];
    uint64_t word = fares_cheapest(book, length, asked[0], asked[1], asked[2], asked[3], asked[4], answer, FARES_ANSWER);
    if (FARES_REFUSAL(word) != 0) {
        printf("refused %u %u\n", FARES_REFUSAL(word), FARES_PLACE(word));
        return 1;
    }
    printf("%u yen, %u rides\n", answer[0], answer[1]);
    for (int i = 0; i < answer[1]; i++) {
        const uint16_t *ride = answer + 2 + 4 * i;
        printf("  company %u, station %u to %u, ", ride[0], ride[1], ride[2]);
        if (ride[3] == 255) {
            printf("paid in full\n");
        } else {
            printf("paid by rule %u\n", ride[3]);
        }
    }
    return 0;
}
