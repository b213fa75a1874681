package app

import (
	"fmt"
	"testing"
)

// A change of tags removes some and sets others. A tag that is both removed and set is set.
func TestMergedTags(t *testing.T) {
	current := map[string]string{"a": "1", "b": "2", "c": "3"}
	found := mergeTags(current, map[string]string{"b": "4", "d": "5"}, []string{"a", "b", "none"})
	if fmt.Sprint(found) != "map[b:4 c:3 d:5]" || fmt.Sprint(current) != "map[a:1 b:2 c:3]" {
		t.Error(found, current)
	}
}

// The limit of memory has a share for kept events only if they are kept.
func TestMemoryLimit(t *testing.T) {
	folder := t.TempDir()
	for words, want := range map[string]int64{"-replay": 0, "-keep-events": 3 << 20} {
		a, _ := startApp(t, words, "-keep-events-size", fmt.Sprint(1<<20), "-snapshot", folder+"/"+words)
		if limit := a.memoryLimit(); limit != memoryBase+memoryPerMember+want {
			t.Errorf("%s: %d", words, limit)
		}
		a.Close()
	}
}
