// Package filepath replaces the part of Go's package filepath that the stores use. It works on simulated disks.
package filepath

import (
	"path/filepath"

	"kitchenrue.example/simulation/disk"
)

// These functions are those of Go's package.
var (
	Abs  = filepath.Abs
	Base = filepath.Base
	Dir  = filepath.Dir
	Join = filepath.Join
)

// EvalSymlinks returns the path, since a simulated disk has no symbolic links. If there is no file at the path, it
// returns an error.
func EvalSymlinks(path string) (string, error) {
	if _, err := disk.Stat(path); err != nil {
		return "", err
	}
	return path, nil
}
