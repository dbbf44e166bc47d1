package vizhoniku

// #include "calls.h"
import "C"

import "strconv"

// A Kind is the kind of a value.
type Kind int

// The kinds. NoKind is that of bytes that are the key of no value.
const (
	NoKind  Kind = C.VIZHONIKU_NO_KIND
	Null    Kind = C.VIZHONIKU_NULL
	Boolean Kind = C.VIZHONIKU_BOOLEAN
	Number  Kind = C.VIZHONIKU_NUMBER
	String  Kind = C.VIZHONIKU_STRING
	Array   Kind = C.VIZHONIKU_ARRAY
	Object  Kind = C.VIZHONIKU_OBJECT
)

var kinds = [...]string{"none", "null", "boolean", "number", "string", "array", "object"}

func (kind Kind) String() string {
	if kind < 0 || int(kind) >= len(kinds) {
		return "none"
	}
	return kinds[kind]
}

// A Key is the sort key of a value: bytes that compare as the values do, and in which the keys of parts are. The parts
// that its methods return share its memory.
//
// The keys of a map are no names for encoding/json: of a map[Key]T it writes the bytes, not all of which are UTF-8, and
// reports no error. Take Text for a name.
//
// string(key) has the bytes to store, and KeyOf takes them back. Key(bytes) does so without a check: of bytes that are
// no key the methods find nothing, or something in them, or return ErrKey.
type Key string

// KeyOf returns the key of stored bytes, which are checked as a whole. The error is ErrKey where they aren't the key of a
// document.
func KeyOf(stored []byte) (Key, error) {
	if C.vizhoniku_key_check(begin(stored), size(len(stored))) != C.VIZHONIKU_ACCEPTED {
		return "", ErrKey
	}
	return Key(stored), nil
}

func (key Key) begin() *C.uchar { return beginOf(string(key)) }

func (key Key) size() C.size_t { return C.size_t(len(key)) }

// Text returns the text of the value, with the fewest digits in each number: 1.5 where the text had 1.50.
func (key Key) Text() ([]byte, error) {
	return key.AppendText(nil)
}

// AppendText appends what Text returns. With an error it returns the bytes that were there.
func (key Key) AppendText(to []byte) ([]byte, error) {
	to, outcome := appended(to, len(key)+16, func(buffer *C.uchar, capacity C.size_t) C.struct_outcome {
		return C.call_key_text(key.begin(), key.size(), buffer, capacity)
	})
	return to, errorOfStatus(outcome.status)
}

// String returns the text of the value, or what is wrong.
func (key Key) String() string {
	text, err := key.Text()
	if err != nil {
		return err.Error()
	}
	return stringOf(text)
}

// MarshalJSON returns the text of the value, and null of the empty Key, which a field has that isn't set.
func (key Key) MarshalJSON() ([]byte, error) {
	if key == "" {
		return []byte("null"), nil
	}
	return key.Text()
}

// UnmarshalJSON sets the key to that of the text, in the mode ExtendedJSON.
func (key *Key) UnmarshalJSON(text []byte) error {
	read, err := SortKey(text, ExtendedJSON)
	if err == nil {
		*key = read
	}
	return err
}

// Kind returns the kind of the value.
func (key Key) Kind() Kind { return Kind(C.vizhoniku_key_kind(key.begin(), key.size())) }

// Count returns how many items an array or members an object has. It is false for other kinds.
func (key Key) Count() (int, bool) {
	outcome := C.call_key_count(key.begin(), key.size())
	return int(outcome.count), outcome.status == C.VIZHONIKU_ACCEPTED
}

func (key Key) found(outcome C.struct_outcome) (Key, error) {
	return key[outcome.offset : outcome.offset+outcome.size], errorOfStatus(outcome.status)
}

// Member returns the member of an object by its name. It is false where there is none.
func (key Key) Member(name string) (Key, bool) {
	part, err := key.found(C.call_key_member(key.begin(), key.size(), beginOf(name), size(len(name))))
	return part, err == nil
}

// Item returns the item of an array by its index, from 0 on; a negative one counts from the end, where -1 is the last
// item. It is false where there is none.
func (key Key) Item(index int) (Key, bool) {
	part, err := key.found(C.call_key_item(key.begin(), key.size(), C.int64_t(index)))
	return part, err == nil
}

// Part returns the part at the path, a JSON Pointer (RFC 6901). The error is ErrNoPart where there is none, and ErrPath
// where the path isn't one.
func (key Key) Part(path string) (Key, error) {
	return key.found(C.call_key_part(key.begin(), key.size(), beginOf(path), size(len(path))))
}

// Parts are the items of an array, or the members of an object in the order of the bytes of their names, one after the
// other:
//
//	for parts := key.Parts(); parts.Next(); {
//		fmt.Println(parts.Name(), parts.Value())
//	}
type Parts struct {
	key  Key
	part C.struct_part
}

// Parts returns the parts of an array or an object. Other kinds have none.
func (key Key) Parts() Parts {
	return Parts{key: key, part: C.call_key_begin(key.begin(), key.size())}
}

// Next goes to the next part. It is false where there is none any more.
func (parts *Parts) Next() bool {
	if parts.part.status == C.VIZHONIKU_ACCEPTED {
		parts.part = C.call_key_next(parts.key.begin(), parts.key.size(), parts.part.cursor)
	}
	return parts.part.status == C.VIZHONIKU_ACCEPTED
}

// Value returns the key of the part.
func (parts *Parts) Value() Key {
	return parts.key[parts.part.entry.offset : parts.part.entry.offset+parts.part.entry.size]
}

// Name returns the name of the member. It is empty for an item.
func (parts *Parts) Name() string {
	entry := parts.part.entry
	name := string(parts.key[entry.name_offset : entry.name_offset+entry.name_size])
	written, _ := appended(nil, len(name), func(buffer *C.uchar, capacity C.size_t) C.struct_outcome {
		return C.call_key_name(beginOf(name), size(len(name)), buffer, capacity)
	})
	return stringOf(written)
}

// AsString returns the text of a string, without quotes and escapes. It is false for other kinds.
func (key Key) AsString() (string, bool) {
	written, outcome := appended(nil, len(key), func(buffer *C.uchar, capacity C.size_t) C.struct_outcome {
		return C.call_key_string(key.begin(), key.size(), buffer, capacity)
	})
	return stringOf(written), outcome.status == C.VIZHONIKU_ACCEPTED
}

// AsBool returns a boolean. It is false for other kinds.
func (key Key) AsBool() (value, ok bool) {
	text := ""
	if key.Kind() == Boolean {
		text = key.String()
	}
	return text == "true", text == "true" || text == "false"
}

// AsInt64 returns the number where it is an integer of this type. It is false for others and for other kinds.
func (key Key) AsInt64() (int64, bool) {
	if key.Kind() != Number {
		return 0, false
	}
	value, err := strconv.ParseInt(key.String(), 10, 64)
	return value, err == nil
}

// AsFloat64 returns the double that is nearest to the number. It is false for other kinds.
func (key Key) AsFloat64() (float64, bool) {
	if key.Kind() != Number {
		return 0, false
	}
	value, err := strconv.ParseFloat(key.String(), 64)
	return value, err == nil
}

// Contains says whether the value contains the other, as @> of PostgreSQL's jsonb does: an object each member of the
// other, an array each item, and a scalar an equal one.
func (key Key) Contains(other Key) bool {
	status := C.vizhoniku_key_contains(key.begin(), key.size(), other.begin(), other.size())
	return status == C.VIZHONIKU_ACCEPTED
}

// The key that a change of a document writes of a key, with space for so many bytes more than that has at first.
func (key Key) changed(more int, call func(buffer *C.uchar, capacity C.size_t) C.struct_outcome) (Key, error) {
	written, outcome := appended(nil, len(key)+more+16, call)
	if outcome.status == C.VIZHONIKU_NO_DOCUMENT {
		return "", ErrKey
	}
	return Key(stringOf(written)), errorOfStatus(outcome.status)
}

// Set returns the key with this part at the path. A part that is there is replaced. Where only the last step leads
// nowhere, and with create, a member is added to an object, and to an array an item. The error is ErrNoPart where nothing
// changes, ErrPath or ErrTooDeep.
func (key Key) Set(path string, part Key, create bool) (Key, error) {
	creates := C.uint32_t(0)
	if create {
		creates = 1
	}
	return key.changed(len(path)+len(part), func(buffer *C.uchar, capacity C.size_t) C.struct_outcome {
		return C.call_document_set(key.begin(), key.size(), beginOf(path), size(len(path)), part.begin(), part.size(),
			creates, buffer, capacity)
	})
}

// Remove returns the key without the part at the path. The error is ErrNoPart where there is none, or ErrPath.
func (key Key) Remove(path string) (Key, error) {
	return key.changed(0, func(buffer *C.uchar, capacity C.size_t) C.struct_outcome {
		return C.call_document_remove(key.begin(), key.size(), beginOf(path), size(len(path)), buffer, capacity)
	})
}

// Put returns the key of an object with this member, instead of one of the name. The error is ErrNoPart where the value
// is no object, ErrPath where the name isn't UTF-8, or ErrTooDeep.
func (key Key) Put(name string, value Key) (Key, error) {
	return key.changed(len(name)+len(value), func(buffer *C.uchar, capacity C.size_t) C.struct_outcome {
		return C.call_document_put(key.begin(), key.size(), beginOf(name), size(len(name)), value.begin(), value.size(),
			buffer, capacity)
	})
}

// Push returns the key of an array with this item at its end. The error is ErrNoPart where the value is no array, or
// ErrTooDeep.
func (key Key) Push(item Key) (Key, error) {
	return key.changed(len(item), func(buffer *C.uchar, capacity C.size_t) C.struct_outcome {
		return C.call_document_push(key.begin(), key.size(), item.begin(), item.size(), buffer, capacity)
	})
}

// Merge returns the key of both values in one, as || of PostgreSQL's jsonb has it: two objects to one with the members of
// both, where those of the other win; else two arrays to one, where a value that is no array is one of itself.
func (key Key) Merge(other Key) (Key, error) {
	return key.changed(len(other), func(buffer *C.uchar, capacity C.size_t) C.struct_outcome {
		return C.call_document_merge(key.begin(), key.size(), other.begin(), other.size(), buffer, capacity)
	})
}
