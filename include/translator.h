/* The station translator, for C.
 *
 * Link with libtranslator.a, which tools/c-example.sh builds from the proved library.
 *
 * A call that refuses changes nothing that it was lent, but for the place that it tells. No call allocates, keeps
 * a pointer after it returns, reads outside the book or writes outside what it is given, and every call returns.
 * Calls may be made from several threads at once.
 */
#ifndef TRANSLATOR_H
#define TRANSLATOR_H

#include <stddef.h>
#include <stdint.h>

#ifdef __cplusplus
extern "C" {
#endif

/* The numbers of the refusals of a book. The place is that of the smallest faulty record, or 0 where the whole book
 * or its head is meant. */
enum translator_refusal {
    TRANSLATOR_OK = 0,             /* no refusal */
    TRANSLATOR_LENGTH = 1,         /* not 32 x (records + 1) bytes, or under 64; place 0 */
    TRANSLATOR_HEAD = 2,           /* kind, version, order or number of records in the head; place 0 */
    TRANSLATOR_LAYOUT = 3,         /* a kind, mark, label, reset or zero byte */
    TRANSLATOR_LINKS = 4,          /* an index that leads astray, a record not named once or not reached */
    TRANSLATOR_GOALS = 5,          /* a goal, opening or next phase outside the station */
    TRANSLATOR_LIMITS = 6,         /* a number or a count out of its range */
    TRANSLATOR_SCALE = 7,          /* a scale over 1,000,000: the station's record, or 0 where only the net's is */
    TRANSLATOR_EMPTY_WINDOW = 8,   /* a window that counts, or a guard up to its bound, holds no time */
    TRANSLATOR_SHARED_MOMENT = 9,  /* two edges or hearing transitions share port, value and moment */
    TRANSLATOR_PATHS = 10,         /* a path with an unknown station, the same station twice, or outside to outside */
    TRANSLATOR_LOCATION = 11       /* a location that is not as printing writes one */
};

/* Judges a book of either kind.
 *
 * book    the first byte of the book. Not null; where length is 0 it is not read, and may be the address of anything.
 * length  how many bytes it has. Any bytes of any length are judged.
 * place   not null, and not inside the book. Written on a refusal only; where the answer is 0 it keeps its value.
 *
 * Answers 0 where the book is lawful, else the number of the first refusal in the order of the numbers. The kind of a
 * lawful book is its first byte: 77 ('M') for a model book, 65 ('A') for an automaton book.
 */
uint32_t translator_check(const uint8_t *book, size_t length, uint64_t *place);

#ifdef __cplusplus
}
#endif

#endif
