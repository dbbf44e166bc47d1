/*-------------------------------------------------------------------------
 *
 * zeros.h
 *	  The zeros behind the key of a document, number by number, as the cast from
 *	  jsonb writes them.  docs/SORT_KEYS.md describes them.
 *
 * What else is made of documents is made by the library.
 *
 *-------------------------------------------------------------------------
 */
#ifndef ZEROS_H
#define ZEROS_H

#include "vjson.h"

/* Of a count each byte has seven bits, the lowest first, and this one where more follow. */
#define MORE			0x80
#define LONGEST_COUNT	((8 * sizeof(size_t) + 6) / 7)

/* The last byte of a document that has zeros. */
#define ZEROS_END		0xFF

/* Zeros that are written. It begins with zero bytes. */
typedef struct
{
	unsigned char *bytes;
	size_t		size;
	size_t		capacity;
	size_t		behind;			/* the offset in the key from which is counted where the next number begins */
} ZerosWriter;

/* Append the zeros of the number that begins at this offset in the key. */
static inline void
add_zeros(ZerosWriter *writer, size_t offset, unsigned char zeros)
{
	size_t		between = offset - writer->behind;

	if (likely(zeros == 0))
		return;
	if (writer->capacity - writer->size < 2 * LONGEST_COUNT + 2)
	{
		writer->capacity = Max(64, 2 * writer->capacity);
		writer->bytes = writer->bytes ? repalloc_huge(writer->bytes, writer->capacity) :
			palloc_extended(writer->capacity, MCXT_ALLOC_HUGE);
	}
	for (; between >= MORE; between >>= 7)
		writer->bytes[writer->size++] = (unsigned char) (between | MORE);
	writer->bytes[writer->size++] = (unsigned char) between;
	writer->bytes[writer->size++] = zeros;
	writer->behind = offset + 1;
}

/* Append what comes behind the zeros of all numbers, if there are any: their size, from the last byte to the first. */
static inline void
end_zeros(ZerosWriter *writer)
{
	size_t		size = writer->size;
	unsigned char count[LONGEST_COUNT];
	int			used = 0;

	if (size == 0)
		return;
	for (; size >= MORE; size >>= 7)
		count[used++] = (unsigned char) (size | MORE);
	count[used++] = (unsigned char) size;
	while (used > 0)
		writer->bytes[writer->size++] = count[--used];
	writer->bytes[writer->size++] = ZEROS_END;
}

#endif							/* ZEROS_H */
