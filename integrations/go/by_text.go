package vizhoniku

import (
	"encoding/json"
	"fmt"
)

// ByText is a map of keys that encoding/json writes as an object whose names are the texts of the keys, and reads so. Of
// another map with such keys it writes the bytes of the keys, which no reader gets back.
type ByText[Value any] map[Key]Value

// MarshalJSON returns the object, with its names in their order.
func (values ByText[Value]) MarshalJSON() ([]byte, error) {
	if values == nil {
		return []byte("null"), nil
	}
	named := make(map[string]Value, len(values))
	for key, value := range values {
		text, err := key.Text()
		if err != nil {
			return nil, err
		}
		named[string(text)] = value
	}
	return json.Marshal(named)
}

// UnmarshalJSON adds the members of an object to the map, each by the key of its name, which is a text of the mode
// ExtendedJSON. Two names with one key are an error.
func (values *ByText[Value]) UnmarshalJSON(text []byte) error {
	var named map[string]Value
	if err := json.Unmarshal(text, &named); err != nil || named == nil {
		return err
	}
	read := make(ByText[Value], len(named))
	for name, value := range named {
		key, err := SortKey([]byte(name), ExtendedJSON)
		if err != nil {
			return fmt.Errorf("the name %q: %w", name, err)
		}
		if _, ok := read[key]; ok {
			return fmt.Errorf("two names have the key of %s", key)
		}
		read[key] = value
	}
	if *values == nil {
		*values = read
		return nil
	}
	for key, value := range read {
		(*values)[key] = value
	}
	return nil
}
