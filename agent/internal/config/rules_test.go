package config

import (
	"fmt"
	"io"
	"strings"
	"testing"
)

// Each number has a minimum. The minimum is accepted, and smaller numbers are refused.
func TestMinimaOfNumbers(t *testing.T) {
	for flag, min := range map[string]int{"-max-members": 1, "-max-names-per-address": 1, "-retry-max": 0} {
		for value, want := range map[int]string{min: "", min - 1: fmt.Sprintf("%s: %d is below %d", flag, min-1, min)} {
			_, err := Parse([]string{flag, fmt.Sprint(value)}, io.Discard)
			if want == "" && err != nil || want != "" && (err == nil || !strings.Contains(err.Error(), want)) {
				t.Errorf("%s %d: %v", flag, value, err)
			}
		}
	}
}
