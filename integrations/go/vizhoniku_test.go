package vizhoniku

import (
	"bytes"
	"encoding/hex"
	"encoding/json"
	"errors"
	"fmt"
	"math/rand"
	"os"
	"reflect"
	"sort"
	"strings"
	"sync"
	"testing"
)

// Documents in the order of their values; those of one line are equal.
var inOrder = [][]string{
	{"false", "FALSE"},
	{"true"},
	{"-18446744073709551616"},
	{"-1.5", "-01.50"},
	{"-0.05"},
	{"0", "-0", "0.00", "0x0"},
	{"0.5", ".5", "+.50"},
	{"1", "1.0", "0x1", "+1", "/* one */ 1 // end"},
	{"9"},
	{"10", "0xA"},
	{"18446744073709551615"},
	{`""`, "''"},
	{`"\u0000"`},
	{`"a"`, `"\u0061"`, "'a'"},
	{`"ab"`},
	{`"é"`, `"\u00e9"`},
	{"{}"},
	{`{"a":1}`, "{a:1.0}"},
	{`{"a":1,"b":2}`, "{b:2,a:1}"},
	{`{"b":null}`},
	{"[]"},
	{"[1]"},
	{"[1,2]", "[1.0,0x2]"},
	{"null", ""},
}

func keyOf(t testing.TB, text string) Key {
	t.Helper()
	key, err := SortKey([]byte(text), ExtendedJSON)
	if err != nil {
		t.Fatalf("%q: %v", text, err)
	}
	return key
}

// The text of a changed key, or the error.
func outcome(key Key, err error) string {
	if err != nil {
		return err.Error()
	}
	return key.String()
}

func equal(t *testing.T, found, wanted any) {
	t.Helper()
	if !reflect.DeepEqual(found, wanted) {
		t.Errorf("found %#v, wanted %#v", found, wanted)
	}
}

func sign(left, right int) int {
	switch {
	case left < right:
		return -1
	case left > right:
		return 1
	}
	return 0
}

func TestOrder(t *testing.T) {
	keys := map[Key]int{}
	for i, left := range inOrder {
		for j, right := range inOrder {
			for _, one := range left {
				for _, two := range right {
					order, err := Compare([]byte(one), []byte(two), Extended)
					if err != nil || order != sign(i, j) {
						t.Errorf("%s, %s: %d, %v", one, two, order, err)
					}
					if strings.Compare(string(keyOf(t, one)), string(keyOf(t, two))) != order {
						t.Errorf("keys of %s, %s", one, two)
					}
				}
			}
		}
		for _, one := range left {
			keys[keyOf(t, one)] = i
		}
	}
	equal(t, len(keys), len(inOrder))
	var sorted []Key
	for key := range keys {
		sorted = append(sorted, key)
	}
	sort.Slice(sorted, func(i, j int) bool { return sorted[i] < sorted[j] })
	for i, key := range sorted {
		equal(t, keys[key], i)
	}
}

func TestParts(t *testing.T) {
	document := keyOf(t, `{user: {name: 'Änn\u0000', age: 30}, tags: ['x', 2.50, true, null], '': {'a/b~': -7}}`)
	count, ok := document.Count()
	equal(t, []any{document.Kind(), count, ok}, []any{Object, 3, true})
	user, ok := document.Member("user")
	equal(t, ok, true)
	name, _ := user.Member("name")
	text, ok := name.AsString()
	equal(t, []any{text, ok, name.Kind().String()}, []any{"Änn\x00", true, "string"})
	age, _ := user.Member("age")
	number, ok := age.AsInt64()
	equal(t, []any{number, ok}, []any{int64(30), true})
	_, ok = user.Member("Age")
	equal(t, ok, false)
	_, ok = user.Item(0)
	equal(t, ok, false)
	tags, _ := document.Member("tags")
	var kinds []Kind
	for parts := tags.Parts(); parts.Next(); {
		kinds = append(kinds, parts.Value().Kind())
		equal(t, parts.Name(), "")
	}
	equal(t, kinds, []Kind{String, Number, Boolean, Null})
	for index, wanted := range map[int]string{0: `"x"`, 1: "2.5", -1: "null", -4: `"x"`} {
		item, ok := tags.Item(index)
		equal(t, []any{item.String(), ok}, []any{wanted, true})
	}
	for _, index := range []int{4, -5, -1 << 63, 1<<63 - 1} {
		_, ok := tags.Item(index)
		equal(t, ok, false)
	}
	half, _ := tags.Item(1)
	double, ok := half.AsFloat64()
	equal(t, []any{double, ok}, []any{2.5, true})
	_, ok = half.AsInt64()
	equal(t, ok, false)
	_, ok = half.AsBool()
	equal(t, ok, false)
	truth, _ := tags.Item(2)
	value, ok := truth.AsBool()
	equal(t, []any{value, ok}, []any{true, true})
	for path, wanted := range map[string]string{
		"//a~1b~0": "-7", "": document.String(), "/tags/4": ErrNoPart.Error(), "tags": ErrPath.Error(),
		"/~2": ErrPath.Error(),
	} {
		equal(t, outcome(document.Part(path)), wanted)
	}
	var names []string
	for parts := document.Parts(); parts.Next(); {
		names = append(names, parts.Name())
		member, ok := document.Member(parts.Name())
		equal(t, []any{member, ok}, []any{parts.Value(), true})
	}
	equal(t, names, []string{"", "tags", "user"})
	for _, scalar := range []string{"1", "'a'", "null", "true"} {
		parts := keyOf(t, scalar).Parts()
		_, ok := keyOf(t, scalar).Count()
		equal(t, []any{parts.Next(), parts.Next(), ok}, []any{false, false, false})
	}
	for _, c := range []struct{ text, path, wanted string }{
		{"{a: [0, {'b/c': [true, 0x10]}]}", "/a/1/b~1c", "[true,16]"},
		{"[1]", "/1", ErrNoPart.Error()},
		{"[1]", "1", ErrPath.Error()},
		{"[1", "/0", "line 1, column 3: EOF while parsing a value"},
		{`["` + strings.Repeat("x", 1000) + `"]`, "/0", `"` + strings.Repeat("x", 1000) + `"`},
	} {
		part, err := Part([]byte(c.text), c.path, Extended)
		if err != nil {
			part = []byte(err.Error())
		}
		equal(t, string(part), c.wanted)
	}
}

func TestChanges(t *testing.T) {
	document, one := keyOf(t, "{a: {b: [1, 2]}, c: 3}"), keyOf(t, "1")
	long := strings.Repeat("x", 10000)
	deep := keyOf(t, strings.Repeat("[", 512)+strings.Repeat("]", 512))
	equal(t, outcome(document.Set("/a/b/0", keyOf(t, "9"), false)), `{"a":{"b":[9,2]},"c":3}`)
	equal(t, outcome(document.Set("/d", keyOf(t, "{}"), true)), `{"a":{"b":[1,2]},"c":3,"d":{}}`)
	equal(t, outcome(document.Set("/d", one, false)), ErrNoPart.Error())
	equal(t, outcome(document.Set("d", one, false)), ErrPath.Error())
	equal(t, outcome(document.Remove("/a/b")), `{"a":{},"c":3}`)
	equal(t, outcome(document.Remove("/x")), ErrNoPart.Error())
	equal(t, outcome(document.Put("c", keyOf(t, "[]"))), `{"a":{"b":[1,2]},"c":[]}`)
	equal(t, outcome(document.Put("\xff", one)), ErrPath.Error())
	equal(t, outcome(document.Push(one)), ErrNoPart.Error())
	equal(t, outcome(keyOf(t, "[1]").Push(keyOf(t, "'x'"))), `[1,"x"]`)
	equal(t, outcome(keyOf(t, "[]").Push(deep)), ErrTooDeep.Error())
	equal(t, outcome(document.Merge(keyOf(t, "{c: 4, d: 5}"))), `{"a":{"b":[1,2]},"c":4,"d":5}`)
	equal(t, outcome(document.Merge(keyOf(t, "{}"))), document.String())
	equal(t, outcome(keyOf(t, "{}").Put(long, keyOf(t, `"`+long+`"`))), `{"`+long+`":"`+long+`"}`)
	equal(t, document.Contains(keyOf(t, "{a: {b: [2.0]}}")), true)
	equal(t, document.Contains(keyOf(t, "{a: {b: [3]}}")), false)
	equal(t, document.String(), `{"a":{"b":[1,2]},"c":3}`)
}

func TestErrors(t *testing.T) {
	_, err := Compare([]byte("1"), []byte("[1,\n x"), Extended)
	var rejected *Error
	if !errors.As(err, &rejected) {
		t.Fatal(err)
	}
	equal(t, *rejected, Error{Code: ExpectedSomeValue, Second: true, Position: 6, Offset: 5, Line: 2, Column: 2, Path: "/1",
		Message: "expected value"})
	equal(t, err.Error(), "second text, line 2, column 2: expected value")
	long := strings.Repeat("k", 100000)
	err = Check([]byte("{"+long+":1,"+long+":2}"), Extended)
	equal(t, errors.As(err, &rejected) && rejected.Message == `duplicate object attribute "`+long+`"`, true)
	equal(t, Check([]byte("1"), 4), ErrMode)
	equal(t, Check([]byte("[1]"), Standard), nil)
	equal(t, []bool{Valid([]byte("1.5"), Extended), Valid([]byte("1.5"), Standard)}, []bool{true, false})
	for _, stored := range []string{"", "x", "\xd2", "\xd2\x00\x00", "\xa1\x14\x00"} {
		_, err := KeyOf([]byte(stored))
		equal(t, err, ErrKey)
	}
	key, err := KeyOf([]byte(keyOf(t, "[1, null]")))
	equal(t, outcome(key, err), "[1,null]")
	equal(t, Key("").Kind(), NoKind)
	equal(t, outcome(Key("").Merge(key)), ErrKey.Error())
	equal(t, Key("").String(), ErrKey.Error())
	for _, call := range []func() (any, error){
		func() (any, error) { return Text([]byte("[1"), Standard) },
		func() (any, error) { return SortKey([]byte("[1"), Standard) },
		func() (any, error) { return AppendText([]byte("x"), []byte("[1"), Standard) },
	} {
		_, err := call()
		equal(t, err.Error(), "line 1, column 3: EOF while parsing a value")
	}
}

func TestAppend(t *testing.T) {
	for _, capacity := range []int{0, 3, 100} {
		to := make([]byte, 2, 2+capacity)
		copy(to, "> ")
		to, err := AppendText(to, []byte("{b: [,], a: 1.50}"), Extended)
		equal(t, []any{string(to), err}, []any{`> {"a":1.50,"b":[null,null]}`, nil})
		to, err = AppendText(to, []byte("["), Extended)
		equal(t, []any{string(to), err != nil}, []any{`> {"a":1.50,"b":[null,null]}`, true})
		to, err = keyOf(t, "{a: 1.50}").AppendText(to[:2])
		equal(t, []any{string(to), err}, []any{`> {"a":1.5}`, nil})
	}
	for _, text := range []string{`"` + strings.Repeat("\x01", 1000) + `"`, "[" + strings.Repeat(",", 1000) + "]", ""} {
		one, err := Text([]byte(text), Extended)
		equal(t, err, nil)
		two, key, err := TextAndKey([]byte(text), Extended)
		equal(t, []any{two, key, err}, []any{one, keyOf(t, text), nil})
		equal(t, key.String(), string(one))
	}
}

func TestJSON(t *testing.T) {
	var row struct {
		ID   int
		Body Key
	}
	err := json.Unmarshal([]byte(`{"id": 7, "body": {"b": 1.50, "a": [true]}}`), &row)
	equal(t, []any{err, row.Body}, []any{nil, keyOf(t, "{a: [true], b: 1.5}")})
	written, err := json.Marshal(row)
	equal(t, []any{string(written), err}, []any{`{"ID":7,"Body":{"a":[true],"b":1.5}}`, nil})
	err = json.Unmarshal([]byte(`{"body": 1e5}`), &row)
	equal(t, []any{err, row.Body}, []any{nil, keyOf(t, "100000")})
	err = json.Unmarshal([]byte(`{"body": 1e38}`), &row)
	equal(t, fmt.Sprint(err), "line 1, column 4: number not carried")
	var unset struct {
		Key      Key
		Document Document
	}
	written, err = json.Marshal(unset)
	equal(t, []any{string(written), err}, []any{`{"Key":null,"Document":null}`, nil})
}

// A map of keys goes through encoding/json and comes back.
func TestByText(t *testing.T) {
	counts := ByText[int]{keyOf(t, `{"b": 1.50, "a": "\u00e9"}`): 1, keyOf(t, `"\u0000"`): 2, keyOf(t, "[-7]"): 3}
	written, err := json.Marshal(counts)
	equal(t, []any{string(written), err}, []any{`{"\"\\u0000\"":2,"[-7]":3,"{\"a\":\"é\",\"b\":1.5}":1}`, nil})
	var read ByText[int]
	equal(t, []any{json.Unmarshal(written, &read), read}, []any{nil, counts})
	equal(t, []any{json.Unmarshal([]byte(`{"[-7.0]": 4, "1e1": 5}`), &read), len(read)}, []any{nil, 4})
	equal(t, []int{read[keyOf(t, "[-7]")], read[keyOf(t, "10")]}, []int{4, 5})
	for text, message := range map[string]string{
		`{"[1": 1}`:           "the name \"[1\": line 1, column 3: EOF while parsing a value",
		`{"1": 1, "1.0": 2}`:  "two names have the key of 1",
		`{"1": "no integer"}`: "json: cannot unmarshal string into Go value of type int",
	} {
		equal(t, json.Unmarshal([]byte(text), &read).Error(), message)
	}
	var none ByText[int]
	written, err = json.Marshal(none)
	equal(t, []any{string(written), err, json.Unmarshal(written, &none), none == nil}, []any{"null", nil, nil, true})
	_, err = json.Marshal(ByText[int]{"": 1})
	equal(t, errors.Is(err, ErrKey), true)
}

func documentOf(t *testing.T, text string) Document {
	t.Helper()
	document, err := DocumentOf([]byte(text), ExtendedJSON)
	equal(t, err, nil)
	return document
}

// Documents keep all digits.
func TestDocuments(t *testing.T) {
	for text, bytes := range map[string]string{
		"1.5":             "\xA1\x1E",
		"1.50":            "\xA1\x1E\x00\x01\x02\xFF",
		"[1,2.500,\"x\"]": "\xD2\xA1\x14\xA1\x32\xD0\x78\x00\x01\x00\x03\x02\x02\xFF",
	} {
		document := documentOf(t, text)
		equal(t, document, Document(bytes))
		checked, err := CheckDocument([]byte(bytes))
		equal(t, []any{checked, err}, []any{document, nil})
		_, err = CheckDocument([]byte(bytes + "\x00"))
		equal(t, err, ErrDocument)
		equal(t, document.String(), text)
		key, err := SortKey([]byte(text), ExtendedJSON)
		equal(t, []any{document.Key(), err}, []any{key, nil})
	}
	equal(t, documentOf(t, "1.50e1").String(), "15.0")
	equal(t, documentOf(t, "1.5") < documentOf(t, "1.50") && documentOf(t, "1.50") < documentOf(t, "1.51"), true)
	_, err := DocumentOf([]byte("[1,"), Standard)
	equal(t, err.Error(), "line 1, column 4: EOF while parsing a value")
	var prices struct{ Net, Tax Document }
	equal(t, json.Unmarshal([]byte(`{"Net": 1.50, "Tax": [0.10]}`), &prices), nil)
	written, err := json.Marshal(prices)
	equal(t, []any{string(written), err}, []any{`{"Net":1.50,"Tax":[0.10]}`, nil})
}

// Changes of documents.
func TestDocumentChanges(t *testing.T) {
	price, tax := documentOf(t, "{net: 1.50, tax: [0.10, 2]}"), documentOf(t, "7.0")
	deep := documentOf(t, strings.Repeat("[", 512)+strings.Repeat("]", 512))
	for _, row := range []struct {
		made func() (Document, error)
		text string
		err  error
	}{
		{func() (Document, error) { return price.Set("/tax/-1", tax, false) }, `{"net":1.50,"tax":[0.10,7.0]}`, nil},
		{func() (Document, error) { return price.Set("/tax/2", tax, true) }, `{"net":1.50,"tax":[0.10,2,7.0]}`, nil},
		{func() (Document, error) { return price.Set("/sum", tax, false) }, "", ErrNoPart},
		{func() (Document, error) { return price.Remove("/net") }, `{"tax":[0.10,2]}`, nil},
		{func() (Document, error) { return price.Remove("net") }, "", ErrPath},
		{func() (Document, error) { return price.Put("sum", tax) }, `{"net":1.50,"sum":7.0,"tax":[0.10,2]}`, nil},
		{func() (Document, error) { return price.Put("\xff", tax) }, "", ErrPath},
		{func() (Document, error) { return price.Push(tax) }, "", ErrNoPart},
		{func() (Document, error) { return documentOf(t, "[1.0]").Push(tax) }, "[1.0,7.0]", nil},
		{func() (Document, error) { return price.Part("/tax") }, "[0.10,2]", nil},
		{func() (Document, error) { return price.Part("/tax/2") }, "", ErrNoPart},
		{func() (Document, error) { return price.Merge(documentOf(t, "{net: 2.00}")) }, `{"net":2.00,"tax":[0.10,2]}`, nil},
		{func() (Document, error) { return tax.Merge(documentOf(t, "[1.0]")) }, "[7.0,1.0]", nil},
		{func() (Document, error) { return documentOf(t, "[0]").Set("/0", deep, false) }, "", ErrTooDeep},
	} {
		made, err := row.made()
		equal(t, err, row.err)
		if err == nil {
			equal(t, made.String(), row.text)
		}
	}
	_, err := Document("\x00").Text()
	equal(t, err, ErrDocument)
	equal(t, Document("").Key(), Key(""))
}

// The texts of tests/vectors.jsonl with their answers.
func TestVectors(t *testing.T) {
	file, err := os.ReadFile("../../tests/vectors.jsonl")
	if os.IsNotExist(err) {
		t.Skip("tests/vectors.jsonl is missing")
	}
	type answer struct {
		Rejected, Text, Reason string
		Position               int
	}
	var documents [][]byte
	accepted, rejected := 0, 0
	for _, line := range bytes.Split(bytes.TrimSpace(file), []byte("\n")) {
		var row struct {
			Input              string
			Standard, Extended answer
		}
		if err := json.Unmarshal(line, &row); err != nil {
			t.Fatal(err)
		}
		input, err := hex.DecodeString(row.Input)
		equal(t, err, nil)
		for mode, answer := range map[Mode]answer{Standard: row.Standard, Extended: row.Extended} {
			if mode == Extended && answer.Reason == "number not carried" {
				continue // of these exponents_test.go tries some
			}
			written, err := Text(input, mode)
			if answer.Text != "" {
				accepted++
				equal(t, []any{hex.EncodeToString(written), err}, []any{answer.Text, nil})
				key, err := SortKey(input, mode)
				equal(t, err, nil)
				again, err := SortKey([]byte(key.String()), Extended)
				equal(t, []any{again, err}, []any{key, nil})
				documents = append(documents, input)
				continue
			}
			rejected++
			var why *Error
			equal(t, errors.As(err, &why), true)
			equal(t, why.Position, answer.Position)
			equal(t, strings.ToValidUTF8(why.Message, "\ufffd"), answer.Reason)
			front := input[:why.Offset]
			equal(t, why.Line, 1+bytes.Count(front, []byte("\n")))
			equal(t, why.Column, len(front)-bytes.LastIndexByte(front, '\n'))
			equal(t, Check(input, mode), error(why))
		}
	}
	if accepted < 1000 || rejected < 1000 {
		t.Errorf("%d accepted, %d rejected", accepted, rejected)
	}
	for i := 1; i < len(documents); i++ {
		one, two := documents[i-1], documents[i]
		order, err := Compare(one, two, Extended)
		equal(t, err, nil)
		equal(t, order, strings.Compare(string(keyOf(t, string(one))), string(keyOf(t, string(two)))))
	}
}

// Of any bytes the methods find something or nothing.
func TestBytesThatAreNoKey(t *testing.T) {
	real := keyOf(t, "{a: [1, -2.5, 'x', {b: null}], c: {d: [true, [], {}], e: 'long enough to be cut'}, f: 0}")
	draw := rand.New(rand.NewSource(1))
	for i := 0; i < 20000; i++ {
		stored := []byte(real)
		for n := draw.Intn(4); n > 0; n-- {
			stored[draw.Intn(len(stored))] = byte(draw.Intn(256))
		}
		stored = stored[:draw.Intn(len(stored)+1)]
		key := Key(stored)
		count, parts := 0, key.Parts()
		for ; parts.Next(); count++ {
			_ = parts.Name() + string(parts.Value())
		}
		_, textErr := key.Text()
		_, partErr := key.Part("/c/d/0")
		_, setErr := key.Set("/c/d/0", real, true)
		_, _ = key.AsString()
		_, _ = key.Member("c")
		_, _ = key.Remove("/a")
		_, _ = key.Push(real)
		_, _ = key.Put("b", real)
		_, _ = key.Merge(real)
		_, _ = key.Contains(real), real.Contains(key)
		if _, err := KeyOf(stored); err == nil {
			wanted, _ := key.Count()
			ok := func(err error) bool { return err == nil || err == ErrNoPart }
			equal(t, []any{count, textErr, ok(partErr), ok(setErr)}, []any{wanted, nil, true, true})
		}
	}
}

func TestGoroutines(t *testing.T) {
	text := []byte("[" + strings.Repeat(`{"a": [1, 2.5], "b": "x"},`, 200) + "0]")
	wanted := keyOf(t, string(text))
	var group sync.WaitGroup
	for i := 0; i < 16; i++ {
		group.Add(1)
		go func() {
			defer group.Done()
			for n := 0; n < 20; n++ {
				key, err := SortKey(text, Extended)
				if err != nil || key != wanted {
					t.Error(err)
				}
			}
		}()
	}
	group.Wait()
}

func TestDeep(t *testing.T) {
	for _, ends := range [][2]string{{"[", "]"}, {`{"a":`, "}"}} {
		text := strings.Repeat(ends[0], 512) + "1" + strings.Repeat(ends[1], 512)
		written, err := Text([]byte(text), Standard)
		equal(t, []any{string(written), err}, []any{text, nil})
		var why *Error
		equal(t, errors.As(Check([]byte(ends[0]+text+ends[1]), Standard), &why), true)
		equal(t, why.Code, DepthLimitExceeded)
	}
}
