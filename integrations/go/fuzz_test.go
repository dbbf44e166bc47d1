package vizhoniku

import (
	"bytes"
	"encoding/json"
	"errors"
	"os"
	"strings"
	"testing"
)

func errorText(err error) string {
	if err == nil {
		return ""
	}
	return err.Error()
}

// FuzzTexts holds the calls against each other, and what is written against encoding/json.
func FuzzTexts(f *testing.F) {
	for i, line := range inOrder {
		f.Add([]byte(line[0]), []byte(line[len(line)-1]), uint8(i))
	}
	f.Add([]byte(`{"a":{"b":[1,{"c":"\ud834\udd1e"}]},"a":1}`), []byte("[1,\n2 3]"), uint8(Standard))
	f.Add([]byte("[1e5, -2.50E+1,\n\"1e5\", x"), []byte(`{"1e2": 1e-38, "a": 1e300}`), uint8(JSON))
	f.Add([]byte(`{"a":1e0,"a":[1.e5, +1e5]}`), []byte("1e37"), uint8(ExtendedJSON))
	f.Fuzz(func(t *testing.T, one, two []byte, number uint8) {
		mode := Mode(number % 4)
		before := append([]byte(nil), one...)
		written, err := Text(one, mode)
		key, keyErr := SortKey(one, mode)
		both, bothKey, bothErr := TextAndKey(one, mode)
		if !bytes.Equal(one, before) {
			t.Fatal("the text has changed")
		}
		if Valid(one, mode) != (err == nil) {
			t.Fatalf("valid, and %v", err)
		}
		for _, other := range []error{keyErr, bothErr, Check(one, mode)} {
			if errorText(other) != errorText(err) {
				t.Fatalf("%v, and %v", err, other)
			}
		}
		if err != nil {
			var why *Error
			if !errors.As(err, &why) || why.Offset > len(one) {
				t.Fatalf("%#v", err)
			}
			front := one[:why.Offset]
			if why.Line != 1+bytes.Count(front, []byte("\n")) || why.Column != len(front)-bytes.LastIndexByte(front, '\n') {
				t.Fatalf("%#v", err)
			}
			return
		}
		if !bytes.Equal(both, written) || bothKey != key {
			t.Fatal("TextAndKey differs")
		}
		again, err := Text(written, mode)
		if err != nil || !bytes.Equal(again, written) || !json.Valid(written) {
			t.Fatalf("%q is written as %q, and that as %q, %v", one, written, again, err)
		}
		if stored, err := KeyOf([]byte(key)); err != nil || stored != key {
			t.Fatal("the key isn't one")
		}
		short, err := key.Text()
		if err != nil {
			t.Fatal(err)
		}
		if same, err := SortKey(short, Extended); err != nil || same != key {
			t.Fatalf("%q is the text of another key, %v", short, err)
		}
		if other, err := SortKey(two, mode); err == nil {
			order, err := Compare(one, two, mode)
			if err != nil || order != strings.Compare(string(key), string(other)) {
				t.Fatalf("%d, %v", order, err)
			}
			merged, err := key.Merge(other)
			if err == nil && key.Kind() == Object && other.Kind() == Object && !merged.Contains(other) {
				t.Fatalf("%s doesn't contain %s", merged, other)
			}
		}
	})
}

// FuzzKeys calls each method on any bytes as a key.
func FuzzKeys(f *testing.F) {
	for _, line := range inOrder {
		f.Add([]byte(keyOf(f, line[0])), "/a/0", int64(0), []byte(keyOf(f, line[0])))
	}
	f.Fuzz(func(t *testing.T, stored []byte, path string, index int64, other []byte) {
		_, err := KeyOf(stored)
		key := Key(stored)
		text, textErr := key.Text()
		if err == nil && textErr == nil {
			textErr = Check(text, Extended)
		}
		if err == nil && textErr != nil {
			t.Fatalf("%q, %v", text, textErr)
		}
		count, parts := 0, key.Parts()
		for ; parts.Next(); count++ {
			_ = parts.Name()
			if _, partErr := KeyOf([]byte(parts.Value())); err == nil && partErr != nil {
				t.Fatal("a part is no key")
			}
		}
		if wanted, _ := key.Count(); err == nil && wanted != count {
			t.Fatalf("%d and %d parts", wanted, count)
		}
		_, _ = key.Item(int(index))
		_, _ = key.Member(path)
		_, _ = key.AsString()
		part, partErr := key.Part(path)
		changed, setErr := key.Set(path, Key(other), true)
		_, otherErr := KeyOf(other)
		if err == nil && partErr == nil && part == "" {
			t.Fatal("an empty part")
		}
		if err == nil && otherErr == nil && setErr == nil {
			if _, err := KeyOf([]byte(changed)); err != nil {
				t.Fatal("the changed key is none")
			}
		}
		_, _ = key.Remove(path)
		_, _ = key.Put(path, Key(other))
		_, _ = key.Push(Key(other))
		_, _ = key.Merge(Key(other))
		_ = key.Contains(Key(other))
		if string(key) != string(stored) {
			t.Fatal("the key has changed")
		}
	})
}

func TestMain(m *testing.M) {
	if Version() < 6 {
		panic("the library is too old")
	}
	os.Exit(m.Run())
}
