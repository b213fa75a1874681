package app

import (
	"errors"
	"fmt"
	"os"
	"path/filepath"

	"kitchenrue.example/agent/internal/config"
	"kitchenrue.example/agent/internal/handlers"
	"kitchenrue.example/agent/internal/keyring"
	"kitchenrue.example/agent/internal/logs"
)

// check checks what a start with this configuration would read, but starts nothing and writes nothing. It doesn't check
// whether the addresses are free, since an agent with the same configuration may be running.
func check(conf config.Config) error {
	if err := conf.Resolve(); err != nil {
		return err
	}
	if _, err := handlers.ParseScripts(conf.EventHandlers); err != nil {
		return err
	}
	if tags, err := openTags(conf.TagsFile, conf.Tags); err != nil {
		return err
	} else if err := tags.validate(); err != nil {
		return err
	}
	if err := checkKeys(&conf); err != nil {
		return err
	}
	if conf.Syslog && !logs.IsFacility(conf.SyslogFacility) {
		return fmt.Errorf("-syslog: syslog has no facility %q", conf.SyslogFacility)
	}
	for flag, path := range map[string]string{"-snapshot": conf.Snapshot, "-record": conf.Record} {
		if err := checkPath(path); err != nil {
			return fmt.Errorf("%s: %w", flag, err)
		}
	}
	return nil
}

// checkKeys reads the keys. If a start would write the keyring file, it only checks the folder of this file.
func checkKeys(conf *config.Config) error {
	key, err := conf.Key()
	if err != nil {
		return err
	}
	if _, err := os.Stat(conf.KeyringFile); key != nil && errors.Is(err, os.ErrNotExist) {
		if err := checkPath(conf.KeyringFile); err != nil {
			return fmt.Errorf("-keyring-file: %w", err)
		}
		return nil
	}
	_, err = keyring.Open(conf.KeyringFile, key)
	return err
}

// checkPath checks that a file is a regular file or, if it doesn't exist, that its folder exists.
func checkPath(path string) error {
	if path == "" {
		return nil
	}
	info, err := os.Stat(path)
	switch {
	case err == nil && !info.Mode().IsRegular():
		return fmt.Errorf("%s is not a regular file", path)
	case err == nil || !errors.Is(err, os.ErrNotExist):
		return err
	}
	folder := filepath.Dir(path)
	if info, err = os.Stat(folder); err == nil && !info.IsDir() {
		err = fmt.Errorf("%s is not a folder", folder)
	}
	return err
}
