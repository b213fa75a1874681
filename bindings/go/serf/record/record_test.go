package record

import (
	"bytes"
	"errors"
	"fmt"
	"io"
	"log"
	"os"
	"path/filepath"
	"regexp"
	"strings"
	"syscall"
	"testing"
	"time"

	"kitchenrue.example/serf"
	"kitchenrue.example/serfagent"
)

// must ends the test if err isn't nil.
func must(t testing.TB, err error) {
	t.Helper()
	if err != nil {
		t.Fatal(err)
	}
}

// check reports err if it isn't nil, and lets the test continue.
func check(t testing.TB, err error) {
	t.Helper()
	if err != nil {
		t.Error(err)
	}
}

// openRecorded opens a proved agent that ignores old events, and whose calls are recorded in NAME.record.
func openRecorded(t *testing.T, name, folder string, limit int64, logger *log.Logger) *Agent {
	t.Helper()
	settings := serfagent.DefaultSettings()
	settings.IgnoreOld = true
	return openRecordedWith(t, name, folder, limit, settings, logger)
}

// openRecordedWith is openRecorded with other settings.
func openRecordedWith(t *testing.T, name, folder string, limit int64, settings serfagent.Settings, logger *log.Logger) *Agent {
	t.Helper()
	proved, text, err := serfagent.OpenWithText(name, filepath.Join(folder, name), settings)
	must(t, err)
	file, err := Open(filepath.Join(folder, name+".record"), limit)
	must(t, err)
	agent, err := Start(serf.Proved(proved), file, name, serf.Opening{Settings: settings, Text: text}, logger)
	must(t, err)
	t.Cleanup(func() { agent.Close() })
	return agent
}

// The open call in a record has the limits of packets only if they differ from Serf's.
func TestLimitsOfPackets(t *testing.T) {
	for limits, want := range map[[2]uint64]string{
		{1024, 1024}: "1024 -", {2000, 1024}: "1024 2000 1024 -", {1024, 300}: "1024 1024 300 -",
	} {
		settings, l := serfagent.DefaultSettings(), &lines{}
		settings.QueryLimit, settings.ResponseLimit = limits[0], limits[1]
		l.writeOpen("a", settings, nil, serfagent.Clocks{Member: 1, Event: 1, Query: 1})
		if found, want := string(l.text), "open 61 512 512 512 1024 keep "+want+"\nopened 1 1 1\n\n"; found != want {
			t.Errorf("%v: %q", limits, found)
		}
	}
}

// fireEvent fires an event, and returns its packet.
func fireEvent(a *Agent, name, payload string, coalesce bool) ([]byte, error) {
	outcomes, err := a.TakeAll(0, nil, []serf.Firing{{Name: name, Payload: []byte(payload), Coalesce: coalesce}})
	if err != nil {
		return nil, err
	}
	if outcomes[0].Fired == nil {
		return nil, outcomes[0].Err
	}
	return outcomes[0].Fired.Packet, nil
}

// receivePackets passes packets to an agent, and returns their outcomes.
func receivePackets(a *Agent, now uint64, packets ...[]byte) ([]serfagent.Outcome, error) {
	var list []serf.Packet
	for _, packet := range packets {
		list = append(list, serf.Packet{Data: packet})
	}
	return a.TakeAll(now, list, nil)
}

var noLog = log.New(io.Discard, "", 0)

// readRecord returns the text of a record without its times.
func readRecord(t *testing.T, path string) string {
	t.Helper()
	text, err := os.ReadFile(path)
	must(t, err)
	return regexp.MustCompile(`(?m)^at \d{19}\n`).ReplaceAllString(string(text), "")
}

func TestCallsAndReplies(t *testing.T) {
	folder := t.TempDir()
	a, b := openRecorded(t, "a", folder, 1<<20, noLog), openRecorded(t, "b", folder, 1<<20, noLog)
	fired, err := fireEvent(a, "deploy", "v1", false)
	must(t, err)
	query, err := a.Query(5, 7, "load", nil, serfagent.QueryParams{Timeout: 1000, WantAck: true})
	must(t, err)
	outcomes, err := receivePackets(b, 9, fired, fired, query.Packet, []byte{}, []byte("\x03\x81\xa4Name\xa1"), []byte{9})
	if err != nil || len(outcomes) != 6 {
		t.Fatal(outcomes, err)
	}
	reply, err := b.Respond(10, outcomes[2].Received.Query.Number, []byte("1"))
	must(t, err)
	if _, err := b.Respond(10, outcomes[2].Received.Query.Number, nil); err != serfagent.NotPending {
		t.Error(err)
	}
	if _, err := b.Respond(10, 99, nil); err != serfagent.NotPending {
		t.Error(err)
	}
	if _, err := receivePackets(a, 20, outcomes[2].Received.Ack, reply, reply); err != nil {
		t.Error(err)
	}
	if _, err := fireEvent(a, strings.Repeat("x", 600), "", true); err != serfagent.TooLarge {
		t.Error(err)
	}
	for i := uint64(0); i < 3; i++ {
		if _, err := a.CloseDue(900 + 200*i); err != nil {
			t.Error(err)
		}
	}
	hexed := func(data []byte) string { return fmt.Sprintf("%x", data) }
	want := "# kitchenrue-agent record 3\nopen 61 512 512 512 1024 ignore 1024 -\nopened 1 1 1\n\n" +
		"fire 6465706c6f79 7631 0\nfired 1\nsent " + hexed(fired) + "\nevent 1 6465706c6f79 7631 0\n\n" +
		"query 5 7 6c6f6164 - 1000 1\nqueried 1\nsent " + hexed(query.Packet) + "\nsent " + hexed(query.Ack) +
		"\nhanded 0 1 7 6c6f6164 -\n\n" +
		"deliver " + hexed(outcomes[2].Received.Ack) + " 20\nack\ncounted ack 1 7 62\n\n" +
		"deliver " + hexed(reply) + " 20\nresponse\ncounted response 1 7 62 31\n\n" +
		"deliver " + hexed(reply) + " 20\nignored ResponseTwice\n\n" +
		"fire " + strings.Repeat("78", 600) + " - 1\nrefused TooLarge\n\nclose 1100\nclosed 1\n\n"
	if found := readRecord(t, filepath.Join(folder, "a.record")); found != want {
		t.Errorf("%s\nand not\n%s", found, want)
	}
	want = "# kitchenrue-agent record 3\nopen 62 512 512 512 1024 ignore 1024 -\nopened 1 1 1\n\n" +
		"deliver " + hexed(fired) + " 9\nnew\nsent " + hexed(fired) + "\nevent 1 6465706c6f79 7631 0\n\n" +
		"deliver " + hexed(fired) + " 9\nignored Seen\n\n" +
		"deliver " + hexed(query.Packet) + " 9\nquery\nsent " + hexed(query.Packet) + "\nsent " + hexed(outcomes[2].Received.Ack) +
		"\nhanded 0 1 7 6c6f6164 -\n\n" +
		"deliver - 9\nrefused Wire Empty\n\ndeliver 0381a44e616d65a1 9\nrefused Wire Truncated 7\n\ndeliver 09 9\nforeign 9\n\n" +
		"respond 0 10 31\nreplied\nsent " + hexed(reply) + "\n\nrespond 0 10 -\nrefused NoQuery\n\n"
	if found := readRecord(t, filepath.Join(folder, "b.record")); found != want {
		t.Errorf("%s\nand not\n%s", found, want)
	}
}

// The library forgets a query whose deadline has passed, and then reports only that it doesn't know it. The record has
// the reason, as docs/SPEC.md requires. A response to a query that the node forgot is not recorded.
func TestForgottenQueries(t *testing.T) {
	folder := t.TempDir()
	a := openRecorded(t, "a", folder, 1<<20, noLog)
	var numbers []uint64
	for _, timeout := range []time.Duration{10, 1000, 10} {
		query, err := a.Query(5, 7, "load", nil, serfagent.QueryParams{Timeout: timeout})
		if err != nil {
			t.Fatal(err)
		}
		numbers = append(numbers, query.Query.Number)
	}
	reply, err := a.Respond(6, numbers[0], nil)
	if err != nil {
		t.Error(err)
	}
	if err := a.Forget(numbers[1]); err != nil {
		t.Error(err)
	}
	if _, err := a.CloseDue(16); err != nil {
		t.Error(err)
	}
	for _, number := range numbers {
		if _, err := a.Respond(16, number, nil); err != serfagent.NotPending {
			t.Error(number, err)
		}
	}
	want := fmt.Sprintf(
		"respond 0 6 -\nreplied\nsent %x\n\nclose 16\nclosed 2\n\nrespond 0 16 -\nrefused NoQuery\n\nrespond 2 16 -\nrefused PastDeadline\n\n",
		reply,
	)
	if found := readRecord(t, filepath.Join(folder, "a.record")); !strings.HasSuffix(found, want) {
		t.Errorf("%s\nand not\n%s", found, want)
	}
}

func TestStatesClocksAndLives(t *testing.T) {
	folder := t.TempDir()
	a, b := openRecorded(t, "a", folder, 1<<20, noLog), openRecorded(t, "b", folder, 1<<20, noLog)
	if _, err := fireEvent(a, "x", "", false); err != nil {
		t.Fatal(err)
	}
	state, err := a.LocalState([]serfagent.Status{{Name: "a", Time: 3}}, nil)
	must(t, err)
	if _, err := b.Merge(state, false); err != nil {
		t.Error(err)
	}
	if _, err := b.Merge([]byte{3, 0x80}, true); err != serfagent.NotPushPull {
		t.Error(err)
	}
	for i := 0; i < 2; i++ {
		check(t, b.ObserveMember(6))
		check(t, b.SaveMemberClock())
	}
	if time, err := b.NextMemberTime(); time != 7 || err != nil {
		t.Error(time, err)
	}
	check(t, b.CompactWith(nil))
	b.Close()
	openRecorded(t, "b", folder, 1<<20, noLog)
	observed := func(time uint64) string { return fmt.Sprintf("merge 0281a54c54696d65cf%016x sync\nmerged\n\n", time+1) }
	want := "# kitchenrue-agent record 3\nopen 62 512 512 512 1024 ignore 1024 -\nopened 1 1 1\n\n" +
		fmt.Sprintf("merge %x sync\nmerged\nevent 1 78 - 0\n\n", state) + "merge 0380 join\nrefused NotPushPull\n\n" +
		observed(6) + "save\nsaved\n\n" + observed(7) + "save\nsaved\n\n# compacting\ncompact\ncompacted\n\n" +
		"\n# kitchenrue-agent record 3\n" +
		fmt.Sprintf("open 62 512 512 512 1024 ignore 1024 %x\nopened 8 2 1\n\n", "clock: 7\nevent-clock: 1\n")
	if found := readRecord(t, filepath.Join(folder, "b.record")); found != want {
		t.Errorf("%s\nand not\n%s", found, want)
	}
	want = fmt.Sprintf("state\nstate\nsent %x\n\n", state)
	if found := readRecord(t, filepath.Join(folder, "a.record")); !strings.Contains(found, want) {
		t.Error(found)
	}
}

func TestRotation(t *testing.T) {
	folder := t.TempDir()
	a := openRecorded(t, "a", folder, 1<<12, noLog)
	for i := 0; i < 1000; i++ {
		if _, err := fireEvent(a, "x", "y", false); err != nil {
			t.Fatal(err)
		}
	}
	path := filepath.Join(folder, "a.record")
	last := uint64(0)
	for number := KeptFiles; number >= 0; number-- {
		name := path
		if number > 0 {
			name = fmt.Sprint(path, ".", number)
		}
		text := readRecord(t, name)
		var first uint64
		head := "# kitchenrue-agent record 3\n# goes on\nopen 61 512 512 512 1024 ignore 1024 "
		if _, err := fmt.Sscanf(text[strings.Index(text, "opened"):], "opened 1 %d 1", &first); err != nil ||
			!strings.HasPrefix(text, head) {
			t.Fatalf("%s: %v %.200s", name, err, text)
		}
		if number < KeptFiles && first != last+1 {
			t.Errorf("%s begins at %d, and %d was before", name, first, last)
		}
		last = first + uint64(strings.Count(text, "\nfired ")) - 1
		if len(text) > 1<<12+400 {
			t.Errorf("%s has %d bytes", name, len(text))
		}
	}
	if last != 1000 {
		t.Errorf("the last event is %d", last)
	}
	if _, err := os.Stat(path + ".9"); !errors.Is(err, os.ErrNotExist) {
		t.Error("the oldest file is kept", err)
	}
}

func TestUnusableRecords(t *testing.T) {
	folder := t.TempDir()
	pipe := filepath.Join(folder, "pipe")
	must(t, syscall.Mkfifo(pipe, 0o600))
	first, err := Open(filepath.Join(folder, "locked"), 1)
	must(t, err)
	defer first.Close()
	notARecord := filepath.Join(folder, "other")
	must(t, os.WriteFile(notARecord, []byte("event-clock: 1\n"), 0o600))
	for path, says := range map[string]string{
		folder: "is a directory", filepath.Join(folder, "none", "none"): "no such file",
		filepath.Join(folder, "locked"): "another program has",
		pipe:                            "is not a regular file", "/dev/null": "is not a regular file", notARecord: "is not a record",
		"/sys/none": "permission denied",
	} {
		if file, err := Open(path, 1); err == nil || !strings.Contains(err.Error(), says) {
			t.Errorf("%s: %v %v", path, file, err)
		}
	}
}

// A record that can't be written ends with one line in the log, and the agent continues.
func TestFullDisk(t *testing.T) {
	var output bytes.Buffer
	a := openRecorded(t, "a", t.TempDir(), 1<<20, log.New(&output, "", 0))
	full, err := os.OpenFile("/dev/full", os.O_WRONLY, 0)
	if err != nil {
		t.Skip(err)
	}
	file := a.output.(*File)
	file.file.Close()
	file.file = full
	for i := 0; i < 3; i++ {
		if _, err := fireEvent(a, "x", "", false); err != nil {
			t.Fatal(err)
		}
	}
	if strings.Count(output.String(), "the record ends, and the agent continues without it") != 1 {
		t.Error(output.String())
	}
}
