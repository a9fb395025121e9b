/* Fare books of several railway companies: judged, read, written, priced and asked (document 01).
 *
 * Build the library with `host/build`, which proves it first, and link target/staticlib/libgate.a. It needs no other
 * library: `cc -I include examples/ask.c target/staticlib/libgate.a -o ask`.
 *
 * A function never fails on what a list holds: it takes any bytes or numbers, and what is wrong with them is its answer.
 * What the caller owes is that each pointer is valid for its length and not NULL (not even where the length is 0), that a
 * pointer to numbers is aligned to 2 bytes, and that a list that is written overlaps no other.
 *
 * Every function returns one word:
 *
 *     bits  0 to 31   how many bytes or numbers were written; 0 on a refusal
 *     bits 32 to 39   the refusal's number, 0 if there is none
 *     bits 40 to 63   the refusal's place
 *
 * A refusal writes nothing. After what was written the lent list stays as it was.
 *
 *     No.  When                                                Place
 *      1   book or sheet ends early, or a sheet goes on        0
 *      2   layout is not 1 (book)                              0
 *      3   companies, links or rules outside their limits      0
 *      4   a contents entry is wrong (book)                    entry
 *      5   a company has not 2 to 40 stations                  company
 *      6   diagonal not 0, or an entry above 9,999             offset in the book of the entry's first byte, or its index
 *                                                              in the sheet
 *      7   bad or repeated link                                link
 *      8   bad rule                                            rule
 *      9   station not in the book                             0 from, 1 to
 *     10   both stations the same                              0
 *     11   ride limit outside 1 to 4                           0
 *     12   no admissible route within the limit                0
 *     13   lent list shorter than the result                   0
 *     14   given route not admissible                          first bad ride
 */
#ifndef FARES_H
#define FARES_H

#include <stddef.h>
#include <stdint.h>

#ifdef __cplusplus
extern "C" {
#endif

/* How many numbers an answer has: the fare, the number of rides, then for each of four places the company, the boarding
 * station, the alighting station and how the ride was paid for, a rule's number or 255 for full. A place that is not used
 * holds 255 four times. */
#define FARES_ANSWER 18

/* The longest book, in bytes, and the longest sheet, in numbers. */
#define FARES_LONGEST_BOOK 52860
#define FARES_LONGEST_SHEET 27155

#define FARES_WRITTEN(word) ((uint32_t)((word) & 0xffffffffu))
#define FARES_REFUSAL(word) ((unsigned)((word) >> 32 & 0xffu))
#define FARES_PLACE(word) ((uint32_t)((word) >> 40))

/* Judges a book. 0 if it is good. On a bad book: its refusal, 1 to 8. */
uint64_t fares_check(const uint8_t *book, size_t book_len);

/* Finds a company's body in a book: its length in bits 0 to 31, its offset in bits 40 to 63 (FARES_WRITTEN and FARES_PLACE).
 * 0, an empty part, if the book is bad or has no such company. There is no refusal here: bits 32 to 39 are 0. */
uint64_t fares_company(const uint8_t *book, size_t book_len, uint8_t company);

/* Reads a book into a lent sheet, a list of 16-bit numbers: companies C, links L, rules R; for each company n and its n * n
 * fares; for each link four numbers; for each rule 32. Says how many numbers were written.
 * On a bad book: its refusal, 1 to 8. Then 13 if room is less than the sheet is long. */
uint64_t fares_read(const uint8_t *book, size_t book_len, uint16_t *sheet, size_t room);

/* Writes the book of a sheet into a lent buffer. Says how many bytes were written.
 * On a bad sheet: its refusal, 1, 3, or 5 to 8. Then 13 if room is less than the book is long. */
uint64_t fares_write(const uint16_t *sheet, size_t sheet_len, uint8_t *book, size_t room);

/* Prices a given route, 3 bytes to a ride: company, boarding and alighting station. Writes an answer of 18 numbers.
 * On a bad book: its refusal, 1 to 8. Then 14 if the route is not admissible. Then 13 if room is less than 18. */
uint64_t fares_price(const uint8_t *book, size_t book_len, const uint8_t *route, size_t route_len, uint16_t *answer,
                     size_t room);

/* Finds the cheapest route between two stations with at most `limit` rides. Writes an answer of 18 numbers.
 * On a bad book: its refusal, 1 to 8. Then 9 if a station is not in the book, 10 if both are the same, 11 if the limit is
 * not 1 to 4, 12 if there is no route. Then 13 if room is less than 18. */
uint64_t fares_cheapest(const uint8_t *book, size_t book_len, uint8_t from_company, uint8_t from_station, uint8_t to_company,
                        uint8_t to_station, uint8_t limit, uint16_t *answer, size_t room);

#ifdef __cplusplus
}
#endif

#endif
