// Package keyring reads the encryption keys of gossip from their file.
package keyring

import (
	"encoding/base64"
	"encoding/json"
	"errors"
	"fmt"
	"os"

	"github.com/hashicorp/memberlist"

	"kitchenrue.example/serfagent"
)

// maxFile is the maximum size in bytes of a file of keys, and maxKeys the maximum number of keys in it.
const (
	maxFile = 1 << 20
	maxKeys = 1024
)

// Open reads the keys of the file at path. The first one encrypts. If the file doesn't exist, key is the only key, and is
// written to the file. If path is empty, key is the only key, or, if it is nil, there is no keyring.
func Open(path string, key []byte) (*memberlist.Keyring, error) {
	if path != "" {
		keys, err := readKeys(path)
		if err == nil {
			return memberlist.NewKeyring(keys, keys[0])
		}
		if !errors.Is(err, os.ErrNotExist) || key == nil {
			return nil, fmt.Errorf("-keyring-file: %w", err)
		}
	}
	if key == nil {
		return nil, nil
	}
	ring, err := memberlist.NewKeyring(nil, key)
	if err != nil || path == "" {
		return ring, err
	}
	data, err := json.MarshalIndent([]string{base64.StdEncoding.EncodeToString(key)}, "", "  ")
	if err != nil {
		return nil, err
	}
	return ring, serfagent.WriteFile(path, data, 0o600)
}

// readKeys reads and checks the keys of a file.
func readKeys(path string) ([][]byte, error) {
	data, err := serfagent.ReadFile(path, maxFile)
	if err != nil {
		return nil, err
	}
	var texts []string
	if err := json.Unmarshal(data, &texts); err != nil {
		return nil, fmt.Errorf("%s is not a list of keys: %w", path, err)
	}
	if len(texts) == 0 || len(texts) > maxKeys {
		return nil, fmt.Errorf("%s has %d keys, and must have 1 to %d", path, len(texts), maxKeys)
	}
	keys := make([][]byte, 0, len(texts))
	for _, text := range texts {
		key, err := base64.StdEncoding.DecodeString(text)
		if err == nil {
			err = memberlist.ValidateKey(key)
		}
		if err != nil {
			return nil, fmt.Errorf("%s has an invalid key: %w", path, err)
		}
		keys = append(keys, key)
	}
	return keys, nil
}
