package serf

import (
	"bytes"
	"encoding/base64"
	"encoding/json"
	"fmt"
	"os"
	"path/filepath"
	"reflect"
	"strings"
	"testing"
)

func testKey(fill byte) []byte { return bytes.Repeat([]byte{fill}, 16) }

func keyText(fill byte) string { return base64.StdEncoding.EncodeToString(testKey(fill)) }

// newTestKeyring returns a keyring with one key that writes its changes to a file.
func newTestKeyring(t *testing.T, path string) *keyring {
	t.Helper()
	c := loopbackConfig("a")
	c.KeyringFile, c.MemberlistConfig.SecretKey = path, testKey(1)
	k, err := newKeyring(&c)
	must(t, err)
	return k
}

func TestKeyChanges(t *testing.T) {
	path := filepath.Join(t.TempDir(), "keys")
	k := newTestKeyring(t, path)
	steps := []struct {
		change  func([]byte) error
		key     []byte
		wantErr string
		keys    []string
	}{
		{k.install, testKey(2), "", []string{keyText(1), keyText(2)}},
		{k.install, []byte("short"), "key size", []string{keyText(1), keyText(2)}},
		{k.use, testKey(3), "not in the keyring", []string{keyText(1), keyText(2)}},
		{k.use, testKey(2), "", []string{keyText(2), keyText(1)}},
		{k.remove, testKey(2), "primary key", []string{keyText(2), keyText(1)}},
		{k.remove, testKey(1), "", []string{keyText(2)}},
		{k.remove, testKey(1), "", []string{keyText(2)}},
	}
	for i, step := range steps {
		err := step.change(step.key)
		if (err == nil) != (step.wantErr == "") || err != nil && !strings.Contains(err.Error(), step.wantErr) {
			t.Errorf("%d: %v", i, err)
		}
		if all, err := k.list(); err != nil || !reflect.DeepEqual(all, step.keys) {
			t.Errorf("%d: %v %v", i, all, err)
		}
		var kept []string
		data, err := os.ReadFile(path)
		if err == nil {
			err = json.Unmarshal(data, &kept)
		}
		if i > 0 && (err != nil || !reflect.DeepEqual(kept, step.keys)) {
			t.Errorf("%d: the file has %v %v", i, kept, err)
		}
	}
	if info, err := os.Stat(path); err != nil || info.Mode().Perm() != 0o600 {
		t.Error(info.Mode(), err)
	}
}

// A keyring accepts at most the number of keys that a node reads from a response.
func TestNumberOfKeysIsLimited(t *testing.T) {
	k := newTestKeyring(t, "")
	for i := 1; i < maxKeys; i++ {
		must(t, k.install([]byte(fmt.Sprintf("%016d", i))))
	}
	if err := k.install(testKey(2)); err == nil || !strings.Contains(err.Error(), "1024 keys") {
		t.Error(err)
	}
	if all, err := k.list(); err != nil || len(all) != maxKeys {
		t.Error(len(all), err)
	}
}

// If a change can't be written to the file, the call returns an error, and the keyring still has the earlier keys.
func TestKeyChangeThatCannotBeWritten(t *testing.T) {
	folder := filepath.Join(t.TempDir(), "folder")
	must(t, os.Mkdir(folder, 0o700))
	k := newTestKeyring(t, filepath.Join(folder, "keys"))
	must(t, os.RemoveAll(folder))
	if err := k.install(testKey(2)); err == nil {
		t.Error("no error, although the change can't be written")
	}
	if all, err := k.list(); err != nil || len(all) == 0 || all[0] != keyText(1) {
		t.Error(all, err)
	}
}

func TestNoKeyring(t *testing.T) {
	c := loopbackConfig("a")
	k, err := newKeyring(&c)
	if err != nil || k != nil {
		t.Fatal(k, err)
	}
	if _, err := k.list(); err == nil || k.install(testKey(1)) == nil || k.use(testKey(1)) == nil || k.remove(testKey(1)) == nil {
		t.Error("no error, although there are no keys")
	}
}
