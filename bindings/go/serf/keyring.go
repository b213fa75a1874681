package serf

import (
	"encoding/base64"
	"encoding/json"
	"errors"
	"fmt"
	"sync"

	"github.com/hashicorp/memberlist"

	"kitchenrue.example/serfagent"
)

// These are the errors of a node that doesn't encrypt gossip.
var (
	//lint:ignore ST1005 Serf's own message
	errNoKeyring = errors.New("No keyring to modify (encryption not enabled)")
	//lint:ignore ST1005 Serf's own message
	errEmptyKeyring = errors.New("Keyring is empty (encryption not enabled)")
)

// keyring has the gossip keys and the path of the file to which changes are written. The node encrypts with the first
// key. A nil keyring means that gossip is not encrypted.
type keyring struct {
	mu   sync.Mutex
	ring *memberlist.Keyring
	path string
}

// newKeyring returns the keyring of a configuration, or nil if it has no key.
func newKeyring(c *Config) (*keyring, error) {
	config := c.MemberlistConfig
	if config.Keyring == nil && len(config.SecretKey) > 0 {
		ring, err := memberlist.NewKeyring(nil, config.SecretKey)
		if err != nil {
			return nil, err
		}
		config.Keyring = ring
	}
	if config.Keyring == nil {
		return nil, nil
	}
	return &keyring{ring: config.Keyring, path: c.KeyringFile}, nil
}

// base64Keys returns the keys in base64. The first one is the key with which the node encrypts. The caller holds mu.
func (k *keyring) base64Keys() []string {
	var texts []string
	for _, key := range k.ring.GetKeys() {
		texts = append(texts, base64.StdEncoding.EncodeToString(key))
	}
	return texts
}

// change makes a change and writes the keys to the file.
func (k *keyring) change(apply func() error) error {
	if k == nil {
		return errNoKeyring
	}
	k.mu.Lock()
	defer k.mu.Unlock()
	if err := apply(); err != nil || k.path == "" {
		return err
	}
	data, err := json.MarshalIndent(k.base64Keys(), "", "  ")
	if err != nil {
		return err
	}
	return serfagent.WriteFile(k.path, data, 0o600)
}

// install adds a key, with which the node can then decrypt.
func (k *keyring) install(key []byte) error {
	return k.change(func() error {
		if len(k.ring.GetKeys()) >= maxKeys {
			return fmt.Errorf("the keyring has %d keys, which is the maximum: remove one first", maxKeys)
		}
		return k.ring.AddKey(key)
	})
}

// use makes the node encrypt with a key that it already has.
func (k *keyring) use(key []byte) error {
	return k.change(func() error { return k.ring.UseKey(key) })
}

// remove removes a key. The key with which the node encrypts can't be removed.
func (k *keyring) remove(key []byte) error {
	return k.change(func() error { return k.ring.RemoveKey(key) })
}

// list returns the keys in base64. The first one is the key with which the node encrypts.
func (k *keyring) list() ([]string, error) {
	if k == nil {
		return nil, errEmptyKeyring
	}
	k.mu.Lock()
	defer k.mu.Unlock()
	return k.base64Keys(), nil
}
