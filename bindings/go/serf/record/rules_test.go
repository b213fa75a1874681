package record

import (
	"fmt"
	"os"
	"path/filepath"
	"strings"
	"testing"

	"kitchenrue.example/serf"
	"kitchenrue.example/serfagent"
)

// The firings of a burst are recorded in their order, each with its own result.
func TestFiringsOfABurstKeepTheirOrder(t *testing.T) {
	folder := t.TempDir()
	a := openRecorded(t, "a", folder, 1<<20, noLog)
	firings := []serf.Firing{{Name: "one"}, {Name: "two"}, {Name: "three"}}
	outcomes, err := a.TakeAll(0, []serf.Packet{{Data: []byte{9}}}, firings)
	must(t, err)
	want := "deliver 09 0\nforeign 9\n\n"
	for i, firing := range firings {
		packet := outcomes[i+1].Fired.Packet
		want += fmt.Sprintf("fire %x - 0\nfired %d\nsent %x\nevent %d %x - 0\n\n", firing.Name, i+1, packet, i+1, firing.Name)
	}
	if found := readRecord(t, filepath.Join(folder, "a.record")); !strings.HasSuffix(found, want) {
		t.Errorf("%s\nand not\n%s", found, want)
	}
}

// Each query is recorded with the bytes that were received or sent. A comment is before it if and only if it has tag
// filters and the node passes them.
func TestRecordedTagFilters(t *testing.T) {
	folder := t.TempDir()
	a, b := openRecorded(t, "a", folder, 1<<20, noLog), openRecorded(t, "b", folder, 1<<20, noLog)
	byNames := serfagent.FilterByNames("a", "b")
	byTag := serfagent.FilterByTag("role", "web")
	wantA, wantB := "", ""
	for i, test := range []struct {
		passes  bool
		filters [][]byte
		note    string
	}{
		{true, [][]byte{byTag, byNames}, "# tags pass\n"}, {false, [][]byte{byTag, byNames}, ""},
		{true, [][]byte{byNames}, ""}, {true, nil, ""},
	} {
		params := serfagent.QueryParams{Timeout: 1000, Filters: test.filters, TagsPass: test.passes}
		query, err := a.Query(5, 7, "load", nil, params)
		must(t, err)
		_, err = b.TakeAll(9, []serf.Packet{{Data: query.Packet, TagsPass: test.passes}}, nil)
		must(t, err)
		words, handed := "", ""
		for _, filter := range test.filters {
			words += fmt.Sprintf(" %x", filter)
		}
		if test.passes {
			number := i
			if i > 0 {
				// (the second query is handed out nowhere)
				number--
			}
			handed = fmt.Sprintf("handed %d %d 7 6c6f6164 -\n", number, i+1)
		}
		wantA += fmt.Sprintf("%squery 5 7 6c6f6164 - 1000 0%s\nqueried %d\nsent %x\n%s\n", test.note, words, i+1, query.Packet, handed)
		wantB += fmt.Sprintf("%sdeliver %x 9\nquery\nsent %x\n%s\n", test.note, query.Packet, query.Packet, handed)
	}
	for name, want := range map[string]string{"a": wantA, "b": wantB} {
		if found := readRecord(t, filepath.Join(folder, name+".record")); !strings.HasSuffix(found, want) {
			t.Errorf("%s\nand not\n%s", found, want)
		}
	}
}

// A life begins with the whole text on which the agent was opened, and with the mode that says whether it keeps events.
func TestLifeBeginsWithItsText(t *testing.T) {
	folder := t.TempDir()
	settings := serfagent.DefaultSettings()
	settings.KeepEvents = true
	text := "alive: b 127.0.0.1:7946\nevent-clock: 1\n#event 1 78 -\nclock"
	must(t, os.WriteFile(filepath.Join(folder, "a"), []byte(text), 0o600))
	openRecordedWith(t, "a", folder, 1<<20, settings, noLog)
	want := fmt.Sprintf("# kitchenrue-agent record 3\nopen 61 512 512 512 1024 keep+events 1024 %x\nopened 1 2 1\n\n", text)
	if found := readRecord(t, filepath.Join(folder, "a.record")); found != want {
		t.Errorf("%s\nand not\n%s", found, want)
	}
}

// Bytes are written as package hex writes them, whatever their number is.
func TestHex(t *testing.T) {
	data := make([]byte, 256)
	for i := range data {
		data[i] = byte(i)
	}
	for from := 0; from < 9; from++ {
		for to := from; to <= len(data); to++ {
			if found, want := string(appendHex([]byte("x"), data[from:to])), fmt.Sprintf("x%x", data[from:to]); found != want {
				t.Fatalf("%s, and not %s", found, want)
			}
		}
	}
}
