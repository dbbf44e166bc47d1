package vizhoniku

import (
	"bytes"
	"encoding/json"
	"fmt"
	"strings"
	"syscall"
	"testing"
)

// Nanoseconds of a processor, which other work on the machine changes little.
func processor() int64 {
	var usage syscall.Rusage
	if syscall.Getrusage(syscall.RUSAGE_SELF, &usage) != nil {
		return 0
	}
	return usage.Utime.Nano() + usage.Stime.Nano()
}

// Calls so often as the benchmark says, and reports the time of a processor too.
func repeat(b *testing.B, call func() error) {
	b.ReportAllocs()
	begin := processor()
	for i := 0; i < b.N; i++ {
		if err := call(); err != nil {
			b.Fatal(err)
		}
	}
	b.ReportMetric(float64(processor()-begin)/float64(b.N), "cpu-ns/op")
}

// Documents of 97 bytes, as those of integrations/python/measure, and one array of 1,000 of them.
func texts() map[string][]byte {
	short := []byte(`{"id": 7919, "tags": ["a1", "b"], "user": {"name": "n1", "age": 1}, "done": false, "n": "xxxxxx"}`)
	var long []string
	for i := 0; i < 1000; i++ {
		long = append(long, fmt.Sprintf(`{"id": %d, "tags": ["a%d", "b"], "user": {"name": "n%d", "age": %d}, "done": false}`,
			i*7919%1000003, i%17, i, i%90))
	}
	return map[string][]byte{"97B": short, "80KB": []byte("[" + strings.Join(long, ", ") + "]")}
}

func run(b *testing.B, name string, call func(text []byte) error) {
	for size, text := range texts() {
		b.Run(name+"/"+size, func(b *testing.B) {
			repeat(b, func() error { return call(text) })
		})
	}
}

func BenchmarkCheck(b *testing.B) {
	run(b, "check", func(text []byte) error { return Check(text, Standard) })
	run(b, "json.Valid", func(text []byte) error {
		if !json.Valid(text) {
			return ErrKey
		}
		return nil
	})
}

func BenchmarkText(b *testing.B) {
	run(b, "text", func(text []byte) error {
		_, err := Text(text, Standard)
		return err
	})
	var to []byte
	run(b, "AppendText", func(text []byte) (err error) {
		to, err = AppendText(to[:0], text, Standard)
		return err
	})
	run(b, "json.Unmarshal, Marshal", func(text []byte) error {
		var value any
		if err := json.Unmarshal(text, &value); err != nil {
			return err
		}
		_, err := json.Marshal(value)
		return err
	})
	var buffer bytes.Buffer
	run(b, "json.Compact", func(text []byte) error {
		buffer.Reset()
		return json.Compact(&buffer, text)
	})
}

func BenchmarkSortKey(b *testing.B) {
	run(b, "SortKey", func(text []byte) error {
		_, err := SortKey(text, Standard)
		return err
	})
}

func BenchmarkPart(b *testing.B) {
	key := keyOf(b, string(texts()["97B"]))
	b.Run("Key.Part", func(b *testing.B) {
		repeat(b, func() error {
			_, err := key.Part("/user/name")
			return err
		})
	})
	b.Run("json.Unmarshal", func(b *testing.B) {
		text := texts()["97B"]
		var row struct{ User struct{ Name string } }
		repeat(b, func() error { return json.Unmarshal(text, &row) })
	})
}
