package vizhoniku

// #include "calls.h"
import "C"

import (
	"errors"
	"fmt"
)

// An Error says why and where a text was rejected.
type Error struct {
	Code     Code
	Second   bool   // the second text of Compare was rejected
	Position int    // the number of bytes of the library's clauses: which byte it means depends on the code
	Offset   int    // the byte to show, from 0 on; the size of the text where that ends too early
	Line     int    // of that byte, from 1 on
	Column   int    // of that byte, from 1 on, in bytes
	Path     string // of the innermost item or member with the fault, a JSON Pointer (RFC 6901); "" is the whole
	Message  string // what is wrong; a name that is repeated is in it verbatim, with any control characters
}

func (err *Error) Error() string {
	second := ""
	if err.Second {
		second = "second text, "
	}
	return fmt.Sprintf("%sline %d, column %d: %s", second, err.Line, err.Column, err.Message)
}

// Errors of calls, beside *Error.
var (
	ErrNoPart      = errors.New("vizhoniku: there is no such part")
	ErrPath        = errors.New("vizhoniku: the path isn't a JSON Pointer (RFC 6901)")
	ErrKey         = errors.New("vizhoniku: the bytes aren't a sort key")
	ErrDocument    = errors.New("vizhoniku: the bytes aren't a document")
	ErrTooDeep     = errors.New("vizhoniku: the value would have more than 512 nested arrays and objects")
	ErrOutOfMemory = errors.New("vizhoniku: memory ran out")
	ErrMode        = errors.New("vizhoniku: no mode has this number")
)

// A Code is the number of what is wrong with a text.
type Code int

// The codes.
const (
	InvalidEOF                             Code = C.VIZHONIKU_INVALID_EOF
	InvalidNumberValue                     Code = C.VIZHONIKU_INVALID_NUMBER_VALUE
	InvalidStringValue                     Code = C.VIZHONIKU_INVALID_STRING_VALUE
	ExpectedSomeIdent                      Code = C.VIZHONIKU_EXPECTED_SOME_IDENT
	ExpectedSomeValue                      Code = C.VIZHONIKU_EXPECTED_SOME_VALUE
	ExpectedColon                          Code = C.VIZHONIKU_EXPECTED_COLON
	ExpectedArrayCommaOrEnd                Code = C.VIZHONIKU_EXPECTED_ARRAY_COMMA_OR_END
	ExpectedObjectCommaOrEnd               Code = C.VIZHONIKU_EXPECTED_OBJECT_COMMA_OR_END
	UnexpectedTrailingCharacters           Code = C.VIZHONIKU_UNEXPECTED_TRAILING_CHARACTERS
	KeyMustBeAString                       Code = C.VIZHONIKU_KEY_MUST_BE_A_STRING
	ControlCharacterWhileParsingString     Code = C.VIZHONIKU_CONTROL_CHARACTER_WHILE_PARSING_STRING
	InvalidEscaped                         Code = C.VIZHONIKU_INVALID_ESCAPED
	InvalidHex                             Code = C.VIZHONIKU_INVALID_HEX
	InvalidLoneLeadingSurrogateInHexEscape Code = C.VIZHONIKU_INVALID_LONE_LEADING_SURROGATE_IN_HEX_ESCAPE
	InvalidSurrogateInHexEscape            Code = C.VIZHONIKU_INVALID_SURROGATE_IN_HEX_ESCAPE
	UnexpectedEndOfHexEscape               Code = C.VIZHONIKU_UNEXPECTED_END_OF_HEX_ESCAPE
	ObjectDuplicateKey                     Code = C.VIZHONIKU_OBJECT_DUPLICATE_KEY
	ObjectKeyInvalidNumber                 Code = C.VIZHONIKU_OBJECT_KEY_INVALID_NUMBER
	ObjectKeyInvalidCharacter              Code = C.VIZHONIKU_OBJECT_KEY_INVALID_CHARACTER
	NumberNotCarried                       Code = C.VIZHONIKU_NUMBER_NOT_CARRIED
	DepthLimitExceeded                     Code = C.VIZHONIKU_DEPTH_LIMIT_EXCEEDED
)

// The error of what a call has reported of a text.
func errorOf(text []byte, mode Mode, outcome C.struct_outcome) error {
	if outcome.status != C.VIZHONIKU_REJECTED {
		return errorOfStatus(outcome.status)
	}
	of, fault := C.uint32_t(mode), outcome.error
	message, reason := appended(nil, 128, func(buffer *C.uchar, capacity C.size_t) C.struct_outcome {
		return C.call_reason(of, begin(text), size(len(text)), buffer, capacity)
	})
	path, found := appended(nil, 128, func(buffer *C.uchar, capacity C.size_t) C.struct_outcome {
		return C.call_error_path(of, begin(text), size(len(text)), fault, buffer, capacity)
	})
	if reason.status != C.VIZHONIKU_REJECTED || found.status != C.VIZHONIKU_ACCEPTED {
		return ErrOutOfMemory
	}
	location := C.call_locate(begin(text), size(len(text)), fault)
	return &Error{
		Code:     Code(fault.code),
		Second:   fault.which == 2,
		Position: int(fault.position),
		Offset:   int(location.index),
		Line:     int(location.line),
		Column:   int(location.column),
		Path:     string(path),
		Message:  string(message),
	}
}

func errorOfStatus(status C.uint32_t) error {
	switch status {
	case C.VIZHONIKU_ACCEPTED:
		return nil
	case C.VIZHONIKU_NO_PART:
		return ErrNoPart
	case C.VIZHONIKU_NO_PATH:
		return ErrPath
	case C.VIZHONIKU_NO_KEY:
		return ErrKey
	case C.VIZHONIKU_NO_DOCUMENT:
		return ErrDocument
	case C.VIZHONIKU_TOO_DEEP:
		return ErrTooDeep
	case C.VIZHONIKU_UNKNOWN_MODE:
		return ErrMode
	default:
		return ErrOutOfMemory
	}
}
