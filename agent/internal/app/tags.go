package app

import (
	"encoding/json"
	"errors"
	"fmt"
	"os"
	"sync"

	"kitchenrue.example/agent/internal/config"
	"kitchenrue.example/serf"
	"kitchenrue.example/serfagent"
)

// maxTagsFile is the maximum size in bytes of a file of tags.
const maxTagsFile = 64 << 10

// tags has this node's tags, and the path of the file that keeps them.
type tags struct {
	path string

	// changeMu is held during a change until the file is written and the tags are announced. mu protects current.
	changeMu sync.Mutex
	mu       sync.Mutex
	current  map[string]string
}

// openTags reads the tags of the file, or uses the configured ones if path is empty or the file doesn't exist.
func openTags(path string, configured map[string]string) (*tags, error) {
	t := &tags{path: path, current: configured}
	if path == "" {
		return t, nil
	}
	data, err := serfagent.ReadFile(path, maxTagsFile)
	if errors.Is(err, os.ErrNotExist) {
		return t, nil
	}
	read := map[string]string{}
	if err == nil {
		err = json.Unmarshal(data, &read)
	}
	if err != nil {
		return nil, fmt.Errorf("-tags-file: %w", err)
	}
	t.current = read
	return t, serf.ValidateTags(t.current)
}

// reread returns the tags of a new configuration: those of the file, or the configured ones if there is no file. If the
// configuration names another file, or the file was removed, the tags stay as they are.
func (t *tags) reread(conf config.Config) (map[string]string, error) {
	if t.path == "" && conf.TagsFile == "" {
		return conf.Tags, serf.ValidateTags(conf.Tags)
	}
	if t.path != conf.TagsFile {
		return t.all(), nil
	}
	read, err := openTags(t.path, t.all())
	if err != nil {
		return nil, err
	}
	return read.current, nil
}

// validate checks the tags.
func (t *tags) validate() error { return serf.ValidateTags(t.all()) }

// all returns the tags. The caller must not change them.
func (t *tags) all() map[string]string {
	t.mu.Lock()
	defer t.mu.Unlock()
	return t.current
}

// change changes the tags, writes them to the file, and announces them.
func (t *tags) change(update func(map[string]string) map[string]string, announce func(map[string]string) error) error {
	t.changeMu.Lock()
	defer t.changeMu.Unlock()
	newTags := update(t.all())
	if err := serf.ValidateTags(newTags); err != nil {
		return err
	}
	if t.path != "" {
		data, err := json.MarshalIndent(newTags, "", "  ")
		if err != nil {
			return err
		}
		if err := serfagent.WriteFile(t.path, data, 0o600); err != nil {
			return fmt.Errorf("-tags-file: %w", err)
		}
	}
	t.mu.Lock()
	t.current = newTags
	t.mu.Unlock()
	return announce(newTags)
}

// mergeTags returns the tags with some removed and others set. As in Serf, a tag that is both removed and set is set.
func mergeTags(current, set map[string]string, remove []string) map[string]string {
	next := make(map[string]string, len(current)+len(set))
	for key, value := range current {
		next[key] = value
	}
	for _, key := range remove {
		delete(next, key)
	}
	for key, value := range set {
		next[key] = value
	}
	return next
}
