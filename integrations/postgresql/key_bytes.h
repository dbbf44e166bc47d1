/*-------------------------------------------------------------------------
 *
 * key_bytes.h
 *	  The bytes of sort keys, which docs/SORT_KEYS.md describes.
 *
 *-------------------------------------------------------------------------
 */
#ifndef KEY_BYTES_H
#define KEY_BYTES_H

/* The first bytes of those that aren't numbers. */
#define FALSE_KEY		0x15
#define TRUE_KEY		0x16
#define STRING_KEY		0xD0
#define OBJECT_KEY		0xD1
#define ARRAY_KEY		0xD2
#define NULL_KEY		0xD3

/* An array ends with END, an object with two, and a text with END and END_OF_TEXT. */
#define END				0x00
#define END_OF_TEXT		0x01

/* The bytes of a string's key that aren't those of its text, and of a name that aren't the name's. */
#define STRING_EXTRA	3
#define NAME_EXTRA		2

/* The most arrays and objects that are open at once. */
#define MOST_LEVELS		512

#endif							/* KEY_BYTES_H */
