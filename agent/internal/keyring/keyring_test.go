package keyring

import (
	"bytes"
	"encoding/base64"
	"os"
	"path/filepath"
	"reflect"
	"strings"
	"testing"

	"kitchenrue.example/agent/internal/testkit"
)

func testKey(fill byte) []byte { return bytes.Repeat([]byte{fill}, 16) }

func encodedKey(fill byte) string { return base64.StdEncoding.EncodeToString(testKey(fill)) }

func TestKeysOfAFile(t *testing.T) {
	path := filepath.Join(t.TempDir(), "keys")
	if ring, err := Open(path, testKey(1)); err != nil || !reflect.DeepEqual(ring.GetKeys(), [][]byte{testKey(1)}) {
		t.Fatal(ring, err)
	}
	if data, err := os.ReadFile(path); err != nil || strings.Join(strings.Fields(string(data)), "") != `["`+encodedKey(1)+`"]` {
		t.Errorf("%q %v", data, err)
	}
	if info, err := os.Stat(path); err != nil || info.Mode().Perm() != 0o600 {
		t.Error(info.Mode(), err)
	}
	testkit.Write(t, path, `["`+encodedKey(2)+`", "`+encodedKey(1)+`"]`)
	// The file overrides the key, and the first of its keys encrypts.
	if ring, err := Open(path, testKey(3)); err != nil || !reflect.DeepEqual(ring.GetKeys(), [][]byte{testKey(2), testKey(1)}) {
		t.Error(ring, err)
	}
	if ring, err := Open("", testKey(1)); err != nil || len(ring.GetKeys()) != 1 {
		t.Error(ring, err)
	}
	if ring, err := Open("", nil); err != nil || ring != nil {
		t.Error(ring, err)
	}
}

// A file may have maxKeys keys, but not one more.
func TestKeysAreBounded(t *testing.T) {
	path := filepath.Join(t.TempDir(), "keys")
	for _, count := range []int{maxKeys, maxKeys + 1} {
		testkit.Write(t, path, "["+strings.Repeat(`"`+encodedKey(1)+`",`, count-1)+`"`+encodedKey(1)+`"]`)
		if _, err := Open(path, nil); (err == nil) != (count == maxKeys) {
			t.Errorf("%d keys: %v", count, err)
		}
	}
}

func TestBadFiles(t *testing.T) {
	folder := t.TempDir()
	for name, content := range map[string]string{
		"a": "", "b": "{}", "c": "[]", "d": `["x"]`, "e": `["QUJD"]`, "f": strings.Repeat(" ", maxFile+1),
	} {
		path := filepath.Join(folder, name)
		testkit.Write(t, path, content)
		if _, err := Open(path, nil); err == nil || !strings.Contains(err.Error(), "-keyring-file") {
			t.Errorf("%q: %v", content, err)
		}
	}
	for _, path := range []string{folder, filepath.Join(folder, "none"), filepath.Join(folder, "none", "none")} {
		if _, err := Open(path, nil); err == nil {
			t.Error(path)
		}
	}
	if _, err := Open(filepath.Join(folder, "none", "none"), testKey(1)); err == nil {
		t.Error("a key was written to a folder that doesn't exist")
	}
}
