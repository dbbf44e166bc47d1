package vizhoniku

// #include "calls.h"
import "C"

// A Document is a value as a store keeps it: its sort key, and behind it the zeros that end its decimals, so that 1.50
// stays so. Documents compare as their values do, and those of equal values by these zeros. A Key is the Document of a
// value without such zeros: Document(key).
//
// string(document) has the bytes to store, and Document(bytes) takes them back without a check: of bytes that are no
// document the methods find nothing, or something in them, or return ErrDocument.
type Document string

// DocumentOf returns the document of the text's value. The error is an *Error for a text that is no document of the mode.
func DocumentOf(text []byte, mode Mode) (Document, error) {
	written, outcome := appended(nil, len(text)+16, func(buffer *C.uchar, capacity C.size_t) C.struct_outcome {
		return C.call_document(C.uint32_t(mode), begin(text), size(len(text)), buffer, capacity)
	})
	if err := errorOf(text, mode, outcome); err != nil {
		return "", err
	}
	return Document(stringOf(written)), nil
}

// CheckDocument returns the document of stored bytes, which are checked as a whole. The error is ErrDocument where they
// aren't the document of a text.
func CheckDocument(stored []byte) (Document, error) {
	status := C.vizhoniku_document_check(begin(stored), size(len(stored)))
	if status != C.VIZHONIKU_ACCEPTED {
		return "", errorOfStatus(status)
	}
	return Document(stored), nil
}

func (document Document) begin() *C.uchar { return beginOf(string(document)) }

func (document Document) size() C.size_t { return C.size_t(len(document)) }

// Key returns the sort key of the value, which the document begins with. It shares its memory.
func (document Document) Key() Key {
	return Key(document[:C.vizhoniku_document_key(document.begin(), document.size())])
}

// Text returns the text of the value, with all its digits: 1.50 where the text had 1.50.
func (document Document) Text() ([]byte, error) {
	text, outcome := appended(nil, len(document)+64, func(buffer *C.uchar, capacity C.size_t) C.struct_outcome {
		return C.call_document_text(document.begin(), document.size(), buffer, capacity)
	})
	return text, errorOfStatus(outcome.status)
}

// String returns the text of the value, or what is wrong.
func (document Document) String() string {
	text, err := document.Text()
	if err != nil {
		return err.Error()
	}
	return stringOf(text)
}

// MarshalJSON returns the text of the value, and null of the empty Document, which a field has that isn't set.
func (document Document) MarshalJSON() ([]byte, error) {
	if document == "" {
		return []byte("null"), nil
	}
	return document.Text()
}

// UnmarshalJSON sets the document to that of the text, in the mode ExtendedJSON.
func (document *Document) UnmarshalJSON(text []byte) error {
	read, err := DocumentOf(text, ExtendedJSON)
	if err == nil {
		*document = read
	}
	return err
}

// The document that a call writes, with space for so many bytes more than this one has at first.
func (document Document) made(
	more int, call func(buffer *C.uchar, capacity C.size_t) C.struct_outcome,
) (Document, error) {
	written, outcome := appended(nil, len(document)+more+16, call)
	return Document(stringOf(written)), errorOfStatus(outcome.status)
}

// Part returns the document of the part at the path, a JSON Pointer (RFC 6901). The error is ErrNoPart where there is
// none, and ErrPath where the path isn't one. Parts of the document's Key are found without being copied.
func (document Document) Part(path string) (Document, error) {
	return document.made(0, func(buffer *C.uchar, capacity C.size_t) C.struct_outcome {
		return C.call_document_part(document.begin(), document.size(), beginOf(path), size(len(path)), buffer, capacity)
	})
}

// Set returns the document with this part at the path. A part that is there is replaced. Where only the last step leads
// nowhere, and with create, a member is added to an object, and to an array an item. The error is ErrNoPart where nothing
// changes, ErrPath or ErrTooDeep.
func (document Document) Set(path string, part Document, create bool) (Document, error) {
	creates := C.uint32_t(0)
	if create {
		creates = 1
	}
	return document.made(len(path)+len(part), func(buffer *C.uchar, capacity C.size_t) C.struct_outcome {
		return C.call_document_set(document.begin(), document.size(), beginOf(path), size(len(path)), part.begin(),
			part.size(), creates, buffer, capacity)
	})
}

// Remove returns the document without the part at the path. The error is ErrNoPart where there is none, or ErrPath.
func (document Document) Remove(path string) (Document, error) {
	return document.made(0, func(buffer *C.uchar, capacity C.size_t) C.struct_outcome {
		return C.call_document_remove(document.begin(), document.size(), beginOf(path), size(len(path)), buffer, capacity)
	})
}

// Put returns the document of an object with this member, instead of one of the name. The error is ErrNoPart where the
// value is no object, ErrPath where the name isn't UTF-8, or ErrTooDeep.
func (document Document) Put(name string, value Document) (Document, error) {
	return document.made(len(name)+len(value), func(buffer *C.uchar, capacity C.size_t) C.struct_outcome {
		return C.call_document_put(document.begin(), document.size(), beginOf(name), size(len(name)), value.begin(),
			value.size(), buffer, capacity)
	})
}

// Push returns the document of an array with this item at its end. The error is ErrNoPart where the value is no array, or
// ErrTooDeep.
func (document Document) Push(item Document) (Document, error) {
	return document.made(len(item), func(buffer *C.uchar, capacity C.size_t) C.struct_outcome {
		return C.call_document_push(document.begin(), document.size(), item.begin(), item.size(), buffer, capacity)
	})
}

// Merge returns the document of both values in one, as || of PostgreSQL's jsonb has it: two objects to one with the
// members of both, where those of the other win; else two arrays to one, where a value that is no array is one of itself.
func (document Document) Merge(other Document) (Document, error) {
	return document.made(len(other), func(buffer *C.uchar, capacity C.size_t) C.struct_outcome {
		return C.call_document_merge(document.begin(), document.size(), other.begin(), other.size(), buffer, capacity)
	})
}
