package vizhoniku_test

import (
	"errors"
	"fmt"
	"sort"
	"vizhoniku"
)

func Example() {
	texts := []string{"null", `"a"`, "10", "9.5", `{"a": 1}`, "[]", "true", "{a: 1.0}"}
	kept := map[vizhoniku.Key]string{}
	var keys []vizhoniku.Key
	for _, text := range texts {
		key, err := vizhoniku.SortKey([]byte(text), vizhoniku.Extended)
		if err != nil {
			fmt.Println(err)
			return
		}
		if _, ok := kept[key]; !ok {
			kept[key] = text
			keys = append(keys, key)
		}
	}
	sort.Slice(keys, func(i, j int) bool { return keys[i] < keys[j] })
	for _, key := range keys {
		fmt.Println(kept[key])
	}
	// Output:
	// true
	// 9.5
	// 10
	// "a"
	// {"a": 1}
	// []
	// null
}

func ExampleText() {
	text, err := vizhoniku.Text([]byte("{b: 0x1F, /* x */ a: [, +.5]} // end"), vizhoniku.Extended)
	fmt.Println(string(text), err)
	// Output: {"a":[null,0.5],"b":31} <nil>
}

func ExampleError() {
	err := vizhoniku.Check([]byte("{\n  \"port\": 8080,\n  \"port\": 8081\n}"), vizhoniku.Standard)
	fmt.Println(err)
	var rejected *vizhoniku.Error
	if errors.As(err, &rejected) {
		fmt.Println(rejected.Line, rejected.Column, rejected.Code == vizhoniku.ObjectDuplicateKey)
	}
	// Output:
	// line 3, column 8: duplicate object attribute "port"
	// 3 8 true
}

func ExampleKey() {
	key, _ := vizhoniku.SortKey([]byte(`{"user": {"name": "Ann", "age": 41}, "tags": ["x"]}`), vizhoniku.Standard)
	age, _ := vizhoniku.SortKey([]byte("42"), vizhoniku.Standard)
	older, err := key.Set("/user/age", age, false)
	fmt.Println(older, err)
	fmt.Println(key < older)
	name, err := older.Part("/user/name")
	fmt.Println(name.AsString())
	fmt.Println(err)
	// Output:
	// {"tags":["x"],"user":{"age":42,"name":"Ann"}} <nil>
	// true
	// Ann true
	// <nil>
}

func ExampleKey_Parts() {
	key, _ := vizhoniku.SortKey([]byte("{b: [1, 2.50], a: null}"), vizhoniku.Extended)
	for parts := key.Parts(); parts.Next(); {
		fmt.Println(parts.Name(), parts.Value())
	}
	// Output:
	// a null
	// b [1,2.5]
}
