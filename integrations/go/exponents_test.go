package vizhoniku

import (
	"errors"
	"fmt"
	"math/big"
	"math/rand"
	"runtime"
	"strings"
	"testing"
)

// What each call says of a text that is rejected.
func faultOf(t *testing.T, text string, mode Mode) Error {
	t.Helper()
	var fault *Error
	if !errors.As(Check([]byte(text), mode), &fault) {
		t.Fatalf("%q is no error", text)
	}
	_, textErr := Text([]byte(text), mode)
	_, keyErr := SortKey([]byte(text), mode)
	_, _, bothErr := TextAndKey([]byte(text), mode)
	_, partErr := Part([]byte(text), "", mode)
	_, leftErr := Compare([]byte(text), []byte("1"), mode)
	for _, err := range []error{textErr, keyErr, bothErr, partErr, leftErr} {
		equal(t, err, error(fault))
	}
	second := *fault
	second.Second = true
	_, rightErr := Compare([]byte("1"), []byte(text), mode)
	equal(t, rightErr, error(&second))
	equal(t, Valid([]byte(text), mode), false)
	return *fault
}

func TestExponents(t *testing.T) {
	for text, wanted := range map[string]string{
		"1e5":     "100000",
		"1E+2":    "100",
		"1.5e-7":  "0.00000015",
		"-2.50e1": "-25.0",
		"0e999":   "0",
		"-0e5":    "0",
		"1e37":    "1" + strings.Repeat("0", 37),
		"1e-38":   "0." + strings.Repeat("0", 37) + "1",
		"[1e2,\n{\"1e2\": \"1e2 \\\" 1e2\"}, 1.50]": `[100,{"1e2":"1e2 \" 1e2"},1.50]`,
		"[1e2] // 1e2 'and' /* more":                "[100]",
		"[" + strings.Repeat("1e37,", 1000) + "0]":  "[" + strings.Repeat("1"+strings.Repeat("0", 37)+",", 1000) + "0]",
	} {
		given := []byte(text)
		equal(t, []any{Check(given, ExtendedJSON), Valid(given, ExtendedJSON)}, []any{nil, true})
		written, err := Text(given, ExtendedJSON)
		equal(t, []any{string(written), err}, []any{wanted, nil})
		written, err = AppendText([]byte("> "), given, ExtendedJSON)
		equal(t, []any{string(written), err}, []any{"> " + wanted, nil})
		equal(t, keyOf(t, text), keyOf(t, wanted))
		written, key, err := TextAndKey(given, ExtendedJSON)
		equal(t, []any{string(written), key, err}, []any{wanted, keyOf(t, wanted), nil})
		written, err = Part(given, "", ExtendedJSON)
		equal(t, []any{string(written), err}, []any{wanted, nil})
		for _, pair := range [][2]string{{text, wanted}, {wanted, text}, {text, text}} {
			order, err := Compare([]byte(pair[0]), []byte(pair[1]), ExtendedJSON)
			equal(t, []any{order, err}, []any{0, nil})
		}
		equal(t, string(given), text)
	}
	equal(t, keyOf(t, "1e2"), keyOf(t, "100"))
	document := []byte("{\"a\": [6.02e23, 'b']}")
	part, err := Part(document, "/a/0", ExtendedJSON)
	equal(t, []any{string(part), err}, []any{"602000000000000000000000", nil})
	_, err = Part(document, "/b", ExtendedJSON)
	equal(t, err, ErrNoPart)
	_, err = Part(document, "a", ExtendedJSON)
	equal(t, err, ErrPath)
}

// The two modes without exponents reject them.
func TestModesWithoutExponents(t *testing.T) {
	for _, text := range []string{"1e5", "[1E+2]", `{"a":1.5e-7}`} {
		for _, mode := range []Mode{Standard, Extended} {
			fault := faultOf(t, text, mode)
			equal(t, []any{fault.Code, fault.Message}, []any{NumberNotCarried, "number not carried"})
		}
	}
}

// JSON takes RFC 8259 alone.
func TestOnlyJSON(t *testing.T) {
	for text, wanted := range map[string]string{
		"[1e5, +1e5]": "line 1, column 7: expected value",
		"[1e5, .5]":   "line 1, column 7: expected value",
		"[01]":        "line 1, column 3: invalid number",
		"[1e5,\n\f1]": "line 2, column 1: expected value",
		"[\"\t\"]":    "line 1, column 3: control character (\\u0000-\\u001F) found while parsing a string",
		"{a: 1}":      "line 1, column 2: expected a name in quotes, or `true`, `false` or `null`",
		"[1e39]":      "line 1, column 5: number not carried",
	} {
		fault := faultOf(t, text, JSON)
		equal(t, []any{text, fault.Error()}, []any{text, wanted})
	}
	equal(t, []bool{Valid([]byte(`{"a": 1.50e1}`), JSON), Valid([]byte("[1,]"), JSON)}, []bool{true, false})
}

func TestLongNumbers(t *testing.T) {
	digits := strings.Repeat("9", 39)
	for text, wanted := range map[string]string{
		"1e38":                 "line 1, column 4: number not carried",
		"1e-39":                "line 1, column 5: number not carried",
		"[1e2,\n 1e300, x]":    "line 2, column 6: number not carried",
		digits:                 "line 1, column 39: number not carried",
		"[1e5," + digits + "]": "line 1, column 44: number not carried",
		"[1e5, +1e39]":         "line 1, column 11: number not carried",
	} {
		fault := faultOf(t, text, ExtendedJSON)
		equal(t, []any{fault.Error(), fault.Code}, []any{wanted, NumberNotCarried})
		to, err := AppendText([]byte("> "), []byte(text), ExtendedJSON)
		equal(t, []any{string(to), err}, []any{"> ", error(&fault)})
	}
}

// Errors have their location in the text that was passed.
func TestErrorsAndExponents(t *testing.T) {
	for _, c := range []struct {
		text    string
		code    Code
		offset  int
		message string
	}{
		{`{"a":1,"a":1e1}`, ObjectDuplicateKey, 9, `line 1, column 10: duplicate object attribute "a"`},
		{"{\"a\":1e1,\n\"a\":2}", ObjectDuplicateKey, 12, `line 2, column 3: duplicate object attribute "a"`},
		{`{"a":10e-1,"a":2}`, ObjectDuplicateKey, 13, `line 1, column 14: duplicate object attribute "a"`},
		{"[x, 1e5]", ExpectedSomeValue, 1, "line 1, column 2: expected value"},
		{"[1e5, 1E-7,\n1e+30, x]", ExpectedSomeValue, 19, "line 2, column 8: expected value"},
		{`[1e0,100e-2,"1e5",x]`, ExpectedSomeValue, 18, "line 1, column 19: expected value"},
		{"[1e5", InvalidEOF, 4, "line 1, column 5: EOF while parsing a value"},
		{"[1e5\n, ", InvalidEOF, 7, "line 2, column 3: EOF while parsing a value"},
		{`[1e0,"`, InvalidEOF, 6, "line 1, column 7: EOF while parsing a value"},
		{"[1e5 -0e5]", ExpectedArrayCommaOrEnd, 5, "line 1, column 6: expected `,` or `]`"},
		{"[1e5,\n\"a\" 0.5e1]", ExpectedArrayCommaOrEnd, 10, "line 2, column 5: expected `,` or `]`"},
	} {
		fault := faultOf(t, c.text, ExtendedJSON)
		equal(t, []any{fault.Code, fault.Offset, fault.Error()}, []any{c.code, c.offset, c.message})
	}
	// An exponent that takes as many bytes as what is written for it changes nothing of an error.
	for _, text := range []string{`[1e2,"\x"]`, `[1e2,"\u12g4"]`, `[1e2,"\u12`, "[1e2 2]", `{"a":1e2 2}`, "[1e2,nul]"} {
		equal(t, faultOf(t, text, ExtendedJSON), faultOf(t, strings.Replace(text, "1e2", "100", 1), ExtendedJSON))
	}
	var fault *Error
	_, err := Compare([]byte("[1e5]"), []byte("[1e5,x"), ExtendedJSON)
	equal(t, []any{errors.As(err, &fault), fault.Second, fault.Offset}, []any{true, true, 5})
	_, err = Compare([]byte("[1e5,x"), []byte("[1e5,x"), ExtendedJSON)
	equal(t, []any{errors.As(err, &fault), fault.Second, fault.Offset}, []any{true, false, 5})
}

// The path of what is wrong is that of the innermost item or member with the fault.
func TestErrorPaths(t *testing.T) {
	for text, wanted := range map[string]string{
		"1e300":                          "",
		"[1e5, 1e-40, 2]":                "/1",
		`{"a": {"b/c~d": [1e2, 1e300]}}`: "/a/b~1c~0d/1",
		`{"a":1e5,"\u00e9\n":[0,{"a":2}],'b':1e99}`: "/b",
		`{"a":1e1,"b":{"x":1,"x":1e300}}`:           "/b/x",
		"[[1],[2,[3,nul]]]":                         "/1/1/1",
		"[1e5 2]":                                   "/0",
		`{"a":1e5 "b":2}`:                           "/a",
		`{"a":{"b":1},}`:                            "",
		`{"a":{"b" 1}}`:                             "/a/b",
		"[0,[1,":                                    "/1/1",
		"[0,[1e5":                                   "/1/0",
		`[0,{"k":"x`:                                "/1/k",
		"[1e5]]":                                    "",
	} {
		equal(t, []any{text, faultOf(t, text, ExtendedJSON).Path}, []any{text, wanted})
	}
	equal(t, faultOf(t, `{"a":[true,1e5]}`, Standard).Path, "/a/1")
}

// Numbers with random digits and exponents against their values as fractions, and errors behind them.
func TestRandomExponents(t *testing.T) {
	draw := rand.New(rand.NewSource(1))
	taken, rejected := 0, 0
	for i := 0; i < 5000; i++ {
		text := fmt.Sprintf("%d.%de%d", draw.Intn(2000)-1000, draw.Intn(1e6), draw.Intn(90)-45)
		if !Valid([]byte(text), ExtendedJSON) {
			rejected++
			fault := faultOf(t, "[1e5, "+text+"]", ExtendedJSON)
			equal(t, []any{fault.Offset, fault.Code}, []any{5 + len(text), NumberNotCarried})
			continue
		}
		taken++
		value, ok := new(big.Rat).SetString(text)
		read, alsoOk := new(big.Rat).SetString(keyOf(t, text).String())
		equal(t, []any{ok, alsoOk, value.Cmp(read)}, []any{true, true, 0})
		equal(t, faultOf(t, "["+text+", "+text+" x", ExtendedJSON).Offset, 2*len(text)+4)
	}
	if taken < 1000 || rejected < 1000 {
		t.Errorf("%d taken, %d rejected", taken, rejected)
	}
}

// A call takes no more memory than the answer, and keeps none.
func TestMemory(t *testing.T) {
	text, exponent, to := []byte("{a: [1.50, 'x', 7], b: null}"), []byte(`{"a": 1e5}`), make([]byte, 0, 100)
	for _, c := range []struct {
		wanted float64
		call   func() error
	}{
		{0, func() error { return Check(text, ExtendedJSON) }},
		{0, func() error { _, err := AppendText(to, text, ExtendedJSON); return err }},
		{0, func() error { _, err := AppendSortKey(to, text, ExtendedJSON); return err }},
		{0, func() error { _, err := Compare(text, text, ExtendedJSON); return err }},
		{1, func() error { _, err := Text(text, ExtendedJSON); return err }},
		{1, func() error { _, err := Part(text, "/a", ExtendedJSON); return err }},
		{0, func() error { return Check(exponent, ExtendedJSON) }},
		{0, func() error { _, err := AppendText(to, exponent, ExtendedJSON); return err }},
	} {
		if found := testing.AllocsPerRun(100, func() {
			if err := c.call(); err != nil {
				t.Error(err)
			}
		}); found > 2*c.wanted { // with the detector of races there are two for one
			t.Errorf("%v allocations, and not %v", found, c.wanted)
		}
	}
	live := func() uint64 {
		var stats runtime.MemStats
		runtime.GC()
		runtime.ReadMemStats(&stats)
		return stats.HeapAlloc
	}
	long := []byte("[" + strings.Repeat("1e37,", 10000) + "0]")
	before := live()
	for i := 0; i < 20; i++ {
		_, _ = Text(long, ExtendedJSON)
		_ = Check(long[:len(long)-1], ExtendedJSON)
	}
	if after := live(); after > before+uint64(len(long)) {
		t.Errorf("%d bytes are kept", after-before)
	}
	runtime.KeepAlive(long)
}
