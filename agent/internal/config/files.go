package config

import (
	"bytes"
	"encoding/json"
	"errors"
	"fmt"
	"io"
	"os"
	"path/filepath"
	"sort"
	"strings"
)

// maxFile is the maximum size in bytes of a configuration file.
const maxFile = 1 << 20

// filesIn returns the files of a folder that end in .json, sorted by name.
func filesIn(folder string) ([]string, error) {
	entries, err := os.ReadDir(folder)
	if err != nil {
		return nil, err
	}
	var found []string
	for _, entry := range entries {
		if !entry.IsDir() && strings.HasSuffix(entry.Name(), ".json") {
			found = append(found, filepath.Join(folder, entry.Name()))
		}
	}
	sort.Strings(found)
	return found, nil
}

// readFile applies the settings of a file.
func (c *Config) readFile(path string) error {
	file, err := os.Open(path)
	if err != nil {
		return errors.Unwrap(err)
	}
	defer file.Close()
	data, err := io.ReadAll(io.LimitReader(file, maxFile+1))
	if err != nil {
		return errors.Unwrap(err)
	}
	if len(data) > maxFile {
		return fmt.Errorf("the file has more than %d bytes", maxFile)
	}
	return c.readJSON(data)
}

// readJSON applies the settings of a JSON object, in the order of their keys.
func (c *Config) readJSON(data []byte) error {
	keys := map[string]json.RawMessage{}
	if err := json.Unmarshal(data, &keys); err != nil {
		return fmt.Errorf("not a JSON object: %w", err)
	}
	names := make([]string, 0, len(keys))
	for name := range keys {
		names = append(names, name)
	}
	sort.Strings(names)
	for _, name := range names {
		setting := settingByKey(name)
		if setting == nil {
			if reason, ok := refusedKeys[name]; ok {
				return fmt.Errorf("%q is not supported: %s", name, reason)
			}
			return fmt.Errorf("unknown setting %q", name)
		}
		values, err := valuesOf(keys[name])
		if err != nil {
			return fmt.Errorf("%q: %w", name, err)
		}
		for _, value := range values {
			if err := setting.set(c, value); err != nil {
				return fmt.Errorf("%q: %w", name, err)
			}
		}
	}
	return nil
}

// settingByKey returns the setting with this key in a file, or nil if there is none.
func settingByKey(name string) *setting {
	for i := range settings {
		if settings[i].key == name {
			return &settings[i]
		}
	}
	return nil
}

// valuesOf returns the values in JSON as flags would have them: one for each element of a list, and one for each pair
// of an object, as key=value.
func valuesOf(raw json.RawMessage) ([]string, error) {
	decoder := json.NewDecoder(bytes.NewReader(raw))
	decoder.UseNumber()
	var value interface{}
	if err := decoder.Decode(&value); err != nil {
		return nil, err
	}
	switch value := value.(type) {
	case nil:
		return nil, nil
	case []interface{}:
		values := make([]string, 0, len(value))
		for _, element := range value {
			text, err := plainText(element)
			if err != nil {
				return nil, err
			}
			values = append(values, text)
		}
		return values, nil
	case map[string]interface{}:
		values := make([]string, 0, len(value))
		for key, element := range value {
			text, err := plainText(element)
			if err != nil {
				return nil, err
			}
			values = append(values, key+"="+text)
		}
		sort.Strings(values)
		return values, nil
	}
	text, err := plainText(value)
	return []string{text}, err
}

// plainText returns a JSON value that is neither a list nor an object as a flag would have it.
func plainText(value interface{}) (string, error) {
	switch value := value.(type) {
	case string:
		return value, nil
	case json.Number:
		return value.String(), nil
	case bool:
		return fmt.Sprint(value), nil
	}
	return "", errors.New("the value is neither a string, a number nor a boolean")
}
