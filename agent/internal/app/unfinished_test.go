package app

import (
	"fmt"
	"os"
	"path/filepath"
	"regexp"
	"strings"
	"syscall"
	"testing"

	"kitchenrue.example/agent/internal/testkit"
)

// life is a life of an agent that keeps its events, over a snapshot and a file that its handlers write.
type life struct {
	*App
	t       *testing.T
	out     *testkit.Output
	ranFile string
}

// lifeStarter returns a function that starts agents, each over the same folder.
func lifeStarter(t *testing.T) func(words ...string) *life {
	folder := t.TempDir()
	ran := filepath.Join(folder, "ran")
	return func(words ...string) *life {
		t.Helper()
		a, out := startApp(t, append([]string{"-keep-events", "-snapshot", filepath.Join(folder, "snapshot"), "-event-handler",
			fmt.Sprintf(
				"user=read WORD; echo $WORD >>%s; while [ -e %s/$WORD ]; do sleep 0.01; done; echo end $WORD >>%s", ran, folder, ran,
			)}, words...)...)
		return &life{a, t, out, ran}
	}
}

// block makes the handler of this event run until unblock is called.
func (l *life) block(word string) {
	testkit.Write(l.t, filepath.Join(filepath.Dir(l.ranFile), word), "")
}

func (l *life) unblock(word string) {
	testkit.Must(l.t, os.Remove(filepath.Join(filepath.Dir(l.ranFile), word)))
}

// waitForHandled waits until the handlers have written this.
func (l *life) waitForHandled(want string) {
	l.t.Helper()
	testkit.Eventually(l.t, want, func() bool {
		text, err := os.ReadFile(l.ranFile)
		return err == nil && strings.HasPrefix(strings.Join(strings.Fields(string(text)), " "), want)
	})
	if found := strings.Join(strings.Fields(testkit.Read(l.t, l.ranFile)), " "); found != want {
		l.t.Errorf("%q, and not %q", found, want)
	}
}

// After SIGTERM, the waiting events stay open, and the running handler may end. After the next start, the handlers of
// these events run before those of new events.
func TestOrderlyEndLeavesOpen(t *testing.T) {
	begin := lifeStarter(t)
	a := begin()
	a.block("one")
	for _, word := range []string{"one", "two", "three"} {
		fire(t, a.App, word)
	}
	a.waitForHandled("one")
	testkit.Eventually(t, "the others wait", func() bool { events, _ := a.runner.Waiting(); return events == 2 })
	signals, ended := make(chan os.Signal, 1), make(chan int)
	go func() { ended <- a.run(nil, signals, a.out, a.out) }()
	signals <- syscall.SIGTERM
	testkit.Eventually(
		t, "the agent ends", func() bool { return a.out.Has("events are waiting for their handlers, which run after the next start") },
	)
	a.unblock("one")
	// (Serf's status for an end without a leave)
	if status := <-ended; status != 1 {
		t.Error(status)
	}
	a.waitForHandled("one end one")
	if text := runsOf(t, 0, a.config.Snapshot); !strings.Contains(text, "1 x one exit 0 read\n2 x two waiting\n3 x three waiting\n") {
		t.Error(text)
	}

	b := begin()
	fire(t, b.App, "new")
	b.waitForHandled("one end one two end two three end three new end new")
	testkit.Eventually(t, "all is done", func() bool { return b.Stats()["serf"]["events_open"] == "0" })
	if stats := b.Stats()["agent"]; stats["handlers_unfinished"] != "0" || b.out.Has("[WARN] agent: a handler") {
		t.Error(stats, b.out)
	}
	testkit.Check(t, b.Close())
}

// The next start logs and counts the handlers that a kill cut off. With -track-handlers=false, nothing is tracked.
func TestCutOffHandlerIsReported(t *testing.T) {
	begin := lifeStarter(t)
	a := begin()
	a.block("one")
	fire(t, a.App, "one")
	fire(t, a.App, "two")
	a.waitForHandled("one")
	// (a handler's own line can be there before the agent has recorded the process)
	testkit.Eventually(
		t, "the process is recorded", func() bool { return strings.Contains(testkit.Read(t, a.config.Snapshot), "\n#process 1 ") },
	)
	// (this is the snapshot that a kill would leave)
	snapshot := testkit.Read(t, a.config.Snapshot)
	a.unblock("one")
	testkit.Check(t, a.Close())
	testkit.Must(t, os.Remove(a.ranFile))
	writeSnapshot(t, a.config.Snapshot, snapshot)

	if text := runsOf(t, 0, "-unfinished", a.config.Snapshot); !strings.Contains(text, "1 x one cut off read (process ") ||
		!strings.Contains(text, ")\n2 x two waiting\n") {
		t.Error(text)
	}

	b := begin()
	b.waitForHandled("two end two")
	// (a handler's own line can be there before the agent's)
	testkit.Eventually(t, "two is done", func() bool {
		return strings.HasSuffix(runsOf(t, 0, "-unfinished", b.config.Snapshot), "\n1 x one cut off read\n")
	})
	says := `[WARN] agent: a handler of user-event: x (time 1, payload "one") began, and the agent ended before the handler did; it isn't run again`
	if stats := b.Stats()["agent"]; stats["handlers_unfinished"] != "1" || stats["handlers_still_running"] != "0" || !b.out.Has(says) ||
		stats["handlers_cut_off"] != "1" {
		t.Error(stats, b.out)
	}
	testkit.Eventually(t, "all is done", func() bool { return b.Stats()["serf"]["events_open"] == "0" })
	testkit.Check(t, b.Close())
	writeSnapshot(t, a.config.Snapshot, snapshot)
	c := begin("-track-handlers=false")
	fire(t, c.App, "three")
	c.waitForHandled("two end two three end three")
	if !c.out.Has("2 events that an earlier life was handed and that are not done are forgotten") {
		t.Error(c.out)
	}
	if text := runsOf(t, 2, "-event", "x", c.config.Snapshot); !strings.Contains(text, "says nothing of handlers") ||
		!strings.HasSuffix(text, "3 x three unknown\n") {
		t.Error(text)
	}
	testkit.Check(t, c.Close())
}

// runsOf returns what the command runs prints, with single spaces, and checks its status.
func runsOf(t *testing.T, want int, words ...string) string {
	t.Helper()
	var out testkit.Output
	if status := Main(append([]string{"runs"}, words...), &out, &out); status != want {
		t.Errorf("%v: status %d, and not %d", words, status, want)
	}
	return regexp.MustCompile(" +").ReplaceAllString(out.String(), " ")
}

// The command runs reads the snapshots of several nodes, and writes none of them. If it can't read one of them, it
// prints the others.
func TestRunsCommand(t *testing.T) {
	folder := t.TempDir()
	text := "#done 0\n#ran 0\n#event 1 61 62\n#begun 1 61 62\n#done 1 61 62\n#ran 1 61 62 x=0\n#event 2 61 63\ntorn"
	path := testkit.Write(t, filepath.Join(folder, "a=b"), text)
	testkit.Must(t, os.Chmod(path, 0o400))
	none, empty := filepath.Join(folder, "none"), testkit.Write(t, filepath.Join(folder, "empty"), "")
	for words, want := range map[string]string{
		"web1=" + path:                     "TIME NAME PAYLOAD web1\n1 a b exit 0\n2 a c waiting\n",
		"-unfinished web1=" + path:         "TIME NAME PAYLOAD web1\n2 a c waiting\n",
		"-event a -payload b web1=" + path: "TIME NAME PAYLOAD web1\n1 a b exit 0\n", "-event= web1=" + path: "TIME NAME PAYLOAD web1\n",
		"-json -payload c web1=" + path: `{"node":"web1","time":2,"name":"a","name_hex":"61","payload":"c","payload_hex":"63",` +
			`"state":"waiting"}` + "\n",
		"-help": strings.Join(strings.Fields(runsUsage), " "),
	} {
		found := runsOf(t, 0, strings.Fields(words)...)
		if words == "-help" {
			found = strings.Join(strings.Fields(found), " ")
		}
		if found != want {
			t.Errorf("%s: %q", words, found)
		}
	}
	for _, test := range []struct {
		words, want string
		status      int
	}{
		{"web1=" + path + " web2=" + none, "no such file or directory\nTIME NAME PAYLOAD web1\n1 a b exit 0\n2 a c waiting\n", 1},
		{
			"web1=" + path + " web2=" + empty,
			empty + " says nothing of handlers, since its agent runs without -keep-events\nTIME NAME PAYLOAD web1 web2\n1 a b exit 0 never arrived\n2 a c waiting never arrived\n",
			2,
		},
		{"web1=" + empty + " web2=" + none, "no such file or directory\nTIME NAME PAYLOAD web1\n", 1},
		{none, "no such file or directory\n", 1}, {folder, "is not a regular file\n", 1},
		{"", "name the snapshot of a node, or several as NODE=FILE\n", 1},
		{empty + " -json", "unexpected \"-json\": flags come before the files\n", 1},
		{empty + " " + empty, "several snapshots have to be named NODE=FILE, each with another NODE\n", 1},
		{"a=" + path + " =" + path, "is not of the form NODE=FILE\n", 1},
		{"-no " + path, "flag provided but not defined: -no\n", 1},
	} {
		if found := runsOf(t, test.status, strings.Fields(test.words)...); !strings.HasSuffix(found, test.want) ||
			!strings.HasPrefix(found, "kitchenrue-agent: runs: ") {
			t.Errorf("%s: %q", test.words, found)
		}
	}
	if testkit.Read(t, path) != text {
		t.Error("the file was written")
	}
}
