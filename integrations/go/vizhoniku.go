// Package vizhoniku has JSON documents by value, over the library libvizhoniku: whether a text is a document, its value
// written in one form, sort keys whose bytes compare as the values do, and sort keys as documents whose parts are found
// and changed.
//
// Equal values have equal keys, and 9.5 is below 10. A Key is a string of bytes, so that keys are compared by ==, < and
// >, and are keys of maps.
//
// A text is bytes in UTF-8, and is parsed in a Mode. No call keeps anything of its arguments, and there is no state:
// goroutines need no lock.
package vizhoniku

/*
#cgo pkg-config: vizhoniku
#include "calls.h"
*/
import "C"

import "unsafe"

// A Mode is the grammar that a text is parsed by.
type Mode uint32

const (
	// Standard is JSON as RFC 8259 has it, with integers of 64 bits alone as numbers.
	Standard Mode = C.VIZHONIKU_STANDARD
	// Extended also has decimals of up to 38 digits, hexadecimals, comments, single quotes, names without quotes and
	// more.
	Extended Mode = C.VIZHONIKU_EXTENDED
	// JSON is RFC 8259 to the letter. Numbers, also those with exponents, have their exact value, of at most 38 digits.
	JSON Mode = C.VIZHONIKU_JSON
	// ExtendedJSON is Extended in which decimals may have exponents.
	ExtendedJSON Mode = C.VIZHONIKU_EXTENDED_JSON
)

// Where bytes begin, for C. No call keeps it.
func begin(data []byte) *C.uchar {
	if len(data) == 0 {
		return nil
	}
	return (*C.uchar)(unsafe.Pointer(&data[0]))
}

// Where the bytes of a string begin, for C, which doesn't write to them.
func beginOf(text string) *C.uchar {
	if len(text) == 0 {
		return nil
	}
	return (*C.uchar)(*(*unsafe.Pointer)(unsafe.Pointer(&text)))
}

// The bytes as a string, with no copy. They aren't changed any more.
func stringOf(data []byte) string {
	return *(*string)(unsafe.Pointer(&data))
}

func size(length int) C.size_t { return C.size_t(length) }

// Appends what a call writes. The call gets space for so many bytes, and then for as many as it asks for where these
// are too few. With an error the bytes that were there are returned.
func appended(
	to []byte, capacity int, call func(buffer *C.uchar, capacity C.size_t) C.struct_outcome,
) ([]byte, C.struct_outcome) {
	for {
		if cap(to)-len(to) < capacity {
			to = append(to, make([]byte, capacity)...)[:len(to)]
		}
		free := to[len(to):cap(to)]
		outcome := call(begin(free), size(len(free)))
		if outcome.status != C.VIZHONIKU_TOO_SHORT {
			return to[:len(to)+int(outcome.size)], outcome
		}
		capacity = int(outcome.size)
	}
}

// Check says whether the text is a document: the error is nil, or an *Error that says what is wrong and where.
func Check(text []byte, mode Mode) error {
	return errorOf(text, mode, C.call_check(C.uint32_t(mode), begin(text), size(len(text))))
}

// Valid says whether the text is a document. It is false where memory ran out too.
func Valid(text []byte, mode Mode) bool {
	return C.call_check(C.uint32_t(mode), begin(text), size(len(text))).status == C.VIZHONIKU_ACCEPTED
}

// Text returns the text of the document's value: without whitespace, and members in the order of the bytes of their
// names. The error is an *Error for a text that is no document.
func Text(text []byte, mode Mode) ([]byte, error) {
	written, err := AppendText(nil, text, mode)
	if err != nil {
		return nil, err
	}
	return written, nil
}

// AppendText appends what Text returns. With an error it returns the bytes that were there.
func AppendText(to, text []byte, mode Mode) ([]byte, error) {
	to, outcome := appended(to, len(text)+16, func(buffer *C.uchar, capacity C.size_t) C.struct_outcome {
		return C.call_text(C.uint32_t(mode), begin(text), size(len(text)), buffer, capacity)
	})
	return to, errorOf(text, mode, outcome)
}

// SortKey returns the key of the document's value. The error is an *Error for a text that is no document.
func SortKey(text []byte, mode Mode) (Key, error) {
	key, err := AppendSortKey(nil, text, mode)
	if err != nil {
		return "", err
	}
	return Key(stringOf(key)), nil
}

// AppendSortKey appends the bytes of the key. With an error it returns the bytes that were there.
func AppendSortKey(to, text []byte, mode Mode) ([]byte, error) {
	to, outcome := appended(to, len(text)+16, func(buffer *C.uchar, capacity C.size_t) C.struct_outcome {
		return C.call_sort_key(C.uint32_t(mode), begin(text), size(len(text)), buffer, capacity)
	})
	return to, errorOf(text, mode, outcome)
}

// TextAndKey returns what Text and SortKey return.
func TextAndKey(text []byte, mode Mode) ([]byte, Key, error) {
	key := make([]byte, len(text)+16)
	written, outcome := appended(nil, len(text)+16, func(buffer *C.uchar, capacity C.size_t) C.struct_outcome {
		outcome := C.call_text_and_key(C.uint32_t(mode), begin(text), size(len(text)), buffer, capacity, begin(key),
			size(len(key)))
		if outcome.status == C.VIZHONIKU_TOO_SHORT && int(outcome.key_size) > len(key) {
			key = make([]byte, outcome.key_size)
		}
		return outcome
	})
	if err := errorOf(text, mode, outcome); err != nil {
		return nil, "", err
	}
	return written, Key(stringOf(key[:outcome.key_size])), nil
}

// Compare returns -1, 0 or 1 where the value of the left document is below that of the right one, equal to it, or above
// it. The error is an *Error where a text is no document, of the first that is none.
func Compare(left, right []byte, mode Mode) (int, error) {
	outcome := C.call_compare(C.uint32_t(mode), begin(left), size(len(left)), begin(right), size(len(right)))
	rejected := left
	if outcome.error.which == 2 {
		rejected = right
	}
	return int(outcome.order), errorOf(rejected, mode, outcome)
}

// Part returns the text of the part at the path, a JSON Pointer (RFC 6901). The error is ErrNoPart where there is none,
// ErrPath where the path isn't one, and an *Error for a text that is no document. The whole text is parsed: for several
// parts of a document Key.Part is faster.
func Part(text []byte, path string, mode Mode) ([]byte, error) {
	written, outcome := appended(nil, 64, func(buffer *C.uchar, capacity C.size_t) C.struct_outcome {
		return C.call_part(C.uint32_t(mode), beginOf(path), size(len(path)), begin(text), size(len(text)), buffer, capacity)
	})
	if err := errorOf(text, mode, outcome); err != nil {
		return nil, err
	}
	return written, nil
}

// Version returns the version of the library's interface, VIZHONIKU_VERSION of its header.
func Version() int { return int(C.vizhoniku_version()) }
