package app

import (
	"context"
	"encoding/json"
	"errors"
	"fmt"
	"io"
	"net"
	"net/http"
	"os"
	"os/signal"
	"path/filepath"
	"reflect"
	"strings"
	"syscall"
	"testing"
	"time"

	"kitchenrue.example/agent/internal/config"
	"kitchenrue.example/agent/internal/logs"
	"kitchenrue.example/agent/internal/testkit"
	"kitchenrue.example/serf"
	"kitchenrue.example/serfagent"
)

// parseConfig returns the configuration of an agent on loopback, with these flags. (On a busy machine, a leave may take
// long.)
func parseConfig(t testing.TB, words ...string) config.Config {
	t.Helper()
	own := []string{
		"-node", "a", "-bind", "127.0.0.1:0", "-rpc-addr", "127.0.0.1:0", "-log-level", "debug", "-broadcast-timeout", "1m",
	}
	found, err := config.Parse(append(own, words...), &testkit.Output{})
	testkit.Must(t, err)
	return found
}

// startApp starts an agent on loopback with these flags, and returns it and its output.
func startApp(t testing.TB, words ...string) (*App, *testkit.Output) {
	t.Helper()
	conf, out := parseConfig(t, words...), &testkit.Output{}
	if conf.Record == "" {
		conf.Record = recordOf(t, conf.Snapshot)
	}
	a, err := Start(conf, out)
	testkit.Must(t, err)
	return a, out
}

func TestLife(t *testing.T) {
	folder := t.TempDir()
	handled, tags := filepath.Join(folder, "handled"), filepath.Join(folder, "tags")
	words := []string{
		"-snapshot", filepath.Join(folder, "snapshot"), "-tags-file", tags, "-event-handler",
		"user=(echo $SERF_TAG_SIZE $SERF_USER_LTIME; cat) >> " + handled,
	}
	a, _ := startApp(t, words...)
	testkit.Must(t, a.UpdateTags(map[string]string{"x": "y"}, nil))
	// As in Serf, a tag that is both set and deleted is set.
	testkit.Must(t, a.UpdateTags(map[string]string{"size": "big"}, []string{"size", "x", "none"}))
	if err := a.UpdateTags(map[string]string{"size": strings.Repeat("x", 600)}, nil); err == nil {
		t.Error("too long")
	}
	testkit.Must(t, a.Fire("deploy", []byte("v1"), false))
	testkit.Must(t, a.Fire("deploy", []byte("v2"), true))
	if stats := a.Stats(); stats["serf"]["event_time"] != "3" || stats["tags"]["size"] != "big" || stats["event_handlers"]["user:"] == "" {
		t.Error(stats)
	}
	// Events that wait to be coalesced are handled when the agent ends.
	testkit.Check(t, a.Close())
	if text := testkit.Read(t, handled); text != "big 1\nv1\nbig 2\nv2\n" {
		t.Errorf("%q", text)
	}
	var written map[string]string
	if err := json.Unmarshal([]byte(testkit.Read(t, tags)), &written); err != nil ||
		!reflect.DeepEqual(written, map[string]string{"size": "big"}) {
		t.Error(written, err)
	}
	again, _ := startApp(t, words...)
	testkit.Must(t, again.Fire("deploy", []byte("v3"), false))
	testkit.Eventually(
		t, "the event of the second life is handled", func() bool { return strings.HasSuffix(testkit.Read(t, handled), "v3\n") },
	)
	testkit.Check(t, again.Close())
	if text := testkit.Read(t, handled); !strings.HasSuffix(text, "big 3\nv3\n") {
		t.Errorf("the clock didn't stop: %q", text)
	}
}

func TestStartsThatFail(t *testing.T) {
	folder := t.TempDir()
	file := filepath.Join(folder, "file")
	testkit.Write(t, file, "no JSON")
	listener, err := net.Listen("tcp", "127.0.0.1:0")
	testkit.Must(t, err)
	defer listener.Close()
	pathOf := func(name string) string { return filepath.Join(folder, name) }
	first, _ := startApp(t, "-snapshot", pathOf("locked"), "-record", pathOf("recorded"))
	defer first.Close()
	testkit.Must(t, syscall.Mkfifo(pathOf("pipe"), 0o600))
	missing := pathOf("none/none")
	for _, test := range []struct{ words, says string }{
		{"-event-handler foo=bar", "is not an event"},
		{"-tag a=" + strings.Repeat("x", 600), "exceeds limit of 512"},
		{"-rpc-addr " + listener.Addr().String(), "address already in use"},
		{"-bind 192.0.2.1:7946", "assign requested address"},
		{"-snapshot " + pathOf("locked"), "-snapshot: " + pathOf("locked") + ": another agent has"},
		{"-snapshot " + folder, "is not a regular file"},
		{"-snapshot " + pathOf("pipe"), "is not a regular file"},
		{"-snapshot " + missing, "folder of the file"},
		{"-snapshot /sys/none", "is not writable"},
		{"-snapshot " + pathOf("both") + " -record " + pathOf("both"), "-snapshot: " + pathOf("both") + ": another agent has"},
		{"-record " + pathOf("recorded"), "-record: another program has"},
		{"-record " + pathOf("locked"), "-record: another program has"},
		{"-record " + folder, "is a directory"},
		{"-record " + pathOf("pipe"), "is not a regular file"},
		{"-record " + file, "is not a record"},
		{"-record " + missing, "no such file"},
		{"-record /sys/none", "permission denied"},
		{"-tags-file " + file, "-tags-file: invalid character"},
		{"-tags-file " + folder, "-tags-file: " + folder + " is not a regular file"},
		{"-tags-file " + pathOf("pipe"), "is not a regular file"},
		{"-tags-file /dev/full", "is not a regular file"},
		{"-keyring-file " + file, "is not a list of keys"},
		{"-keyring-file " + folder, "is not a regular file"},
		{"-keyring-file " + pathOf("pipe"), "is not a regular file"},
		{"-keyring-file " + missing, "no such file"},
		{"-keyring-file /sys/none -encrypt cg8StVXbQJ0gPvMd9o7yrg==", "permission denied"},
	} {
		out := &testkit.Output{}
		a, err := Start(parseConfig(t, strings.Fields(test.words)...), out)
		if err == nil {
			a.Close()
		}
		if err == nil || !strings.Contains(err.Error(), test.says) || strings.Contains(err.Error(), "\n") {
			t.Errorf("%s: %v", test.words, err)
		}
	}
	_, err = Start(parseConfig(t, "-snapshot", filepath.Join(folder, "locked")), &testkit.Output{})
	if !errors.Is(err, serfagent.ErrLocked) {
		t.Error(err)
	}
}

// Tags that can't be written to their file are refused.
func TestTagsThatCannotBeWritten(t *testing.T) {
	folder := filepath.Join(t.TempDir(), "folder")
	testkit.Must(t, os.Mkdir(folder, 0o700))
	a, _ := startApp(t, "-tags-file", filepath.Join(folder, "tags"))
	defer a.Close()
	testkit.Check(t, a.UpdateTags(map[string]string{"size": "big"}, nil))
	testkit.Must(t, os.RemoveAll(folder))
	if err := a.UpdateTags(map[string]string{"size": "small"}, nil); err == nil || !strings.Contains(err.Error(), "-tags-file") {
		t.Error(err)
	}
	if !reflect.DeepEqual(a.tags.all(), map[string]string{"size": "big"}) || !reflect.DeepEqual(a.node.LocalMember().Tags, a.tags.all()) {
		t.Error(a.tags.all(), a.node.LocalMember().Tags)
	}
}

func TestReload(t *testing.T) {
	handled := filepath.Join(t.TempDir(), "handled")
	a, out := startApp(t, "-event-handler", "user=echo one >> "+handled)
	testkit.Must(t, a.Reload(parseConfig(t, "-event-handler", "user=echo two >> "+handled, "-tag", "k=v", "-log-level", "err")))
	if !reflect.DeepEqual(a.tags.all(), map[string]string{"k": "v"}) {
		t.Error(a.tags.all())
	}
	before := out.String()
	if err := a.Reload(parseConfig(t, "-event-handler", "foo=bar")); err == nil {
		t.Error("an unknown event is accepted")
	}
	testkit.Must(t, a.Fire("x", nil, false))
	testkit.Eventually(t, "the event is handled", func() bool {
		text, _ := os.ReadFile(handled)
		return strings.HasSuffix(string(text), "\n")
	})
	testkit.Check(t, a.Close())
	if testkit.Read(t, handled) != "two\n" || strings.Contains(out.String()[len(before):], "INFO") {
		t.Error(testkit.Read(t, handled), out)
	}
}

// A reload reads the file of tags again. If this file can't be read, the reload refuses the whole configuration.
func TestReloadOfTagsFile(t *testing.T) {
	file := filepath.Join(t.TempDir(), "tags")
	a, _ := startApp(t, "-tags-file", file)
	defer a.Close()
	testkit.Must(t, a.UpdateTags(map[string]string{"v": "1"}, nil))
	testkit.Write(t, file, `{"v": "2"}`)
	testkit.Must(t, a.Reload(parseConfig(t, "-tags-file", file)))
	if tags := a.node.LocalMember().Tags; !reflect.DeepEqual(tags, map[string]string{"v": "2"}) {
		t.Error(tags)
	}
	testkit.Write(t, file, "no JSON")
	if err := a.Reload(parseConfig(t, "-tags-file", file, "-log-level", "err")); err == nil ||
		!strings.Contains(err.Error(), "-tags-file") {
		t.Error(err)
	}
	// A change to another file of tags needs a restart, and so does a change to no file.
	for _, words := range [][]string{{"-tags-file", file + "2"}, {"-tag", "v=3"}} {
		testkit.Must(t, a.Reload(parseConfig(t, words...)))
		if tags := a.node.LocalMember().Tags; !reflect.DeepEqual(tags, map[string]string{"v": "2"}) {
			t.Error(words, tags)
		}
	}
}

// After SIGHUP, the agent names the settings that have changed and need a restart, and no others.
func TestReloadNamesWhatNeedsARestart(t *testing.T) {
	file := filepath.Join(t.TempDir(), "settings.json")
	testkit.Write(t, file, `{"log_level": "debug", "bind": "localhost:0", "tags": {"v": "1"}}`)
	words := []string{"-node", "a", "-rpc-addr", "127.0.0.1:0", "-config-file", file}
	conf, err := config.Parse(words, io.Discard)
	testkit.Must(t, err)
	out := &testkit.Output{}
	a, err := Start(conf, out)
	testkit.Must(t, err)
	defer a.Close()
	testkit.Write(t, file, `{"log_level": "debug", "bind": "localhost:0", "tags": {"v": "2"}}`)
	a.reloadFiles(words, out)
	if !out.Has("==> Reloaded the configuration.") || out.Has("need a restart") {
		t.Error(out)
	}
	testkit.Write(t, file, `{"log_level": "debug", "bind": "localhost:1", "tags": {"v": "2"}, "retry_interval": "1s"}`)
	a.reloadFiles(words, out)
	if !out.Has("[WARN] agent: these settings have changed, and need a restart: bind, retry_interval\n") {
		t.Error(out)
	}
}

// -check reads what a start would read, writes nothing, and needs no free address.
func TestCheck(t *testing.T) {
	folder := t.TempDir()
	bad := testkit.Write(t, filepath.Join(folder, "bad"), "no JSON")
	listener, err := net.Listen("tcp", "127.0.0.1:0")
	testkit.Must(t, err)
	defer listener.Close()
	at, key := listener.Addr().String(), "cg8StVXbQJ0gPvMd9o7yrg=="
	for _, test := range []struct{ words, says string }{
		{"", ""},
		{
			"-bind " + at + " -rpc-addr " + at + " -snapshot " + folder + "/snapshot -record " + folder + "/record -tag a=b -encrypt " +
				key + " -keyring-file " + folder + "/keys",
			"",
		},
		{"-event-handler foo=bar", "is not an event"},
		{"-tag a=" + strings.Repeat("x", 600), "exceeds limit of 512"},
		{"-tags-file " + bad, "-tags-file: "},
		{"-keyring-file " + bad, "is not a list of keys"},
		{"-keyring-file " + folder + "/none", "no such file"},
		{"-keyring-file " + folder + "/none/keys -encrypt " + key, "-keyring-file: "},
		{"-snapshot " + folder, "-snapshot: " + folder + " is not a regular file"},
		{"-snapshot " + folder + "/none/snapshot", "-snapshot: "},
		{"-snapshot " + bad + "/snapshot", "-snapshot: "},
		{"-record " + folder, "-record: "},
		{"-iface none0", "-iface: "},
		{"-retry-max x", "is not a number"},
		{
			"-config-file " + testkit.Write(t, filepath.Join(folder, "syslog"), `{"enable_syslog": true, "syslog_facility": "local9"}`),
			"syslog has no facility",
		},
	} {
		var out, errs testkit.Output
		status := Main(append([]string{"-check", "-node", "a"}, strings.Fields(test.words)...), &out, &errs)
		if (status == 0) != (test.says == "") || out.Has("The configuration is valid.\n") != (status == 0) || !errs.Has(test.says) {
			t.Errorf("%s: %d %s %s", test.words, status, &out, &errs)
		}
	}
	entries, err := os.ReadDir(folder)
	if testkit.Must(t, err); len(entries) != 2 {
		t.Error("files were written:", entries)
	}
}

// The command members prints the members of a running agent.
func TestMembersCommand(t *testing.T) {
	a, _ := startApp(t, "-rpc-auth", "token", "-tag", "k=v")
	defer a.Close()
	at := a.server.Load().Addr().String()
	for _, test := range []struct {
		words     []string
		status    int
		out, errs string
	}{
		{[]string{"-rpc-addr", at, "-rpc-auth", "token"}, 0, "a  " + a.node.Memberlist().LocalNode().Address() + "  alive  k=v\n", ""},
		{[]string{"-rpc-addr", at}, 1, "", "kitchenrue-agent: members: Authentication required\n"},
		{[]string{"-help"}, 0, "usage: kitchenrue-agent members", ""},
		{[]string{"x"}, 1, "", "unexpected argument"},
		{[]string{"-x"}, 1, "", "flag provided but not defined"},
	} {
		var out, errs testkit.Output
		if status := Main(append([]string{"members"}, test.words...), &out, &errs); status != test.status || !out.Has(test.out) ||
			!errs.Has(test.errs) {
			t.Errorf("%v: %d %s %s", test.words, status, &out, &errs)
		}
	}
}

func TestJoining(t *testing.T) {
	a, _ := startApp(t)
	defer a.Close()
	address := a.node.Memberlist().LocalNode().Address()
	b, out := startApp(t, "-node", "b", "-retry-join", address, "-retry-interval", "10ms")
	testkit.Must(t, b.JoinAtStart(context.Background()))
	testkit.Eventually(t, "both are members", func() bool { return len(a.Members()) == 2 && len(b.Members()) == 2 })
	testkit.Eventually(t, "the join is logged", func() bool { return strings.Contains(out.String(), "Join completed") })
	if count, err := b.Join([]string{address}, true); count != 1 || err != nil {
		t.Error(count, err)
	}
	testkit.Check(t, b.Leave())
	if _, err := b.Join([]string{address}, true); err == nil {
		t.Error("a node that left joins")
	}
	testkit.Check(t, b.Close())
	c, _ := startApp(t, "-node", "c", "-retry-join", "127.0.0.1:1", "-retry-interval", "10ms", "-retry-max", "2")
	defer c.Close()
	testkit.Must(t, c.JoinAtStart(context.Background()))
	if err := <-c.endReason; err == nil || !strings.Contains(err.Error(), "in 3 attempts") {
		t.Error(err)
	}
	d, _ := startApp(t, "-node", "d", "-join", "127.0.0.1:1")
	defer d.Close()
	if err := d.JoinAtStart(context.Background()); err == nil || !strings.Contains(err.Error(), "-join") {
		t.Error(err)
	}
	if _, err := d.Query("x", nil, &serf.QueryParam{Timeout: time.Millisecond}); err != nil {
		t.Error(err)
	}
	// On a busy machine, the answer may be too late.
	testkit.Eventually(t, "the agent reports that it has no keys", func() bool {
		_, err := d.KeyManager().ListKeys()
		return err != nil && strings.Contains(err.Error(), "1/1 nodes reported failure")
	})
}

// A name is resolved once at the start, and the agent listens only at its address: the port may be in use at another one.
func TestNamedAddresses(t *testing.T) {
	start := func() (*App, error) {
		other, err := net.ListenPacket("udp4", "127.0.0.2:0")
		testkit.Must(t, err)
		defer other.Close()
		port := other.LocalAddr().(*net.UDPAddr).Port
		found := parseConfig(t, "-bind", fmt.Sprint("localhost:", port), "-rpc-addr", "localhost:0", "-advertise", "localhost:7999")
		return Start(found, &testkit.Output{})
	}
	a, err := start()
	// (another process may use the port at 127.0.0.1)
	for tries := 0; tries < 9 && err != nil && strings.Contains(err.Error(), "address already in use"); tries++ {
		a, err = start()
	}
	testkit.Must(t, err)
	defer a.Close()
	node := a.node.Memberlist().LocalNode()
	if !node.Addr.IsLoopback() || node.Port != 7999 || !a.server.Load().Addr().(*net.TCPAddr).IP.IsLoopback() {
		t.Error(node.Addr, node.Port, a.server.Load().Addr())
	}
}

// The log reports implausible clocks in a snapshot at the start. The first clock is below the bound, as a flood may
// leave it.
func TestFarClocksAreLogged(t *testing.T) {
	path := filepath.Join(t.TempDir(), "snapshot")
	testkit.Write(t, path, "clock: 4611686018427387904\nevent-clock: 18446744073709551614\nquery-clock: 9223372036854775807\n")
	a, out := startApp(t, "-snapshot", path)
	defer a.Close()
	for _, says := range []string{"event-clock is at 18446744073709551615", "query-clock is at 9223372036854775808"} {
		if !strings.Contains(out.String(), says) {
			t.Errorf("%s: without %q", out, says)
		}
	}
	if strings.Contains(out.String(), "snapshot's clock is at") {
		t.Error(out)
	}
}

func TestMainStatuses(t *testing.T) {
	faulty := filepath.Join(t.TempDir(), "faulty.json")
	testkit.Write(t, faulty, `{"enable_syslog": true, "syslog_facility": "local9"}`)
	for _, test := range []struct {
		words  string
		status int
		out    string
		errs   string
	}{
		{"-help", 0, "usage: kitchenrue-agent", ""},
		{"-version", 0, "kitchenrue-agent " + config.Version, ""},
		{"-foo", 1, "", "kitchenrue-agent: flag provided but not defined: -foo\n"},
		{
			"-node a -bind 127.0.0.1:0 -rpc-addr 127.0.0.1:0 -config-file " + faulty, 1, "",
			"kitchenrue-agent: -syslog: syslog has no facility \"local9\"\n",
		},
		{"-node a -bind 127.0.0.1:0 -rpc-addr 127.0.0.1:0 -join 127.0.0.1:1", 1, "", "connection refused"},
	} {
		var out, errs testkit.Output
		if status := Main(strings.Fields(test.words), &out, &errs); status != test.status {
			t.Errorf("%s: %d", test.words, status)
		}
		if !strings.Contains(out.String(), test.out) || !strings.Contains(errs.String(), test.errs) ||
			strings.Count(errs.String(), "\n") > 1 {
			t.Errorf("%s: %q %q", test.words, out.String(), errs.String())
		}
	}
}

// The page for Prometheus has the agent's own figures and the node's metrics.
func TestMainMetrics(t *testing.T) {
	at, errs, ended := startWithMetrics(t)
	for tries := 0; tries < 9 && errs.Has("address already in use"); tries++ {
		at, errs, ended = startWithMetrics(t)
	}
	if len(ended) > 0 {
		t.Fatal(errs)
	}
	for _, what := range []string{
		"\nserf_members 1\n", "\nagent_handlers_waiting 0\n", "\nserf_member_joins_total 1\n", "\nserf_dropped_far_total 0\n",
		"\nserf_refused_total{reason=\"too_long\"} 0\n", "\nserf_ignored_total{reason=\"too_old\"} 0\n", "\nserf_events_missing 0\n",
	} {
		testkit.Eventually(t, what, func() bool {
			answer, err := http.Get("http://" + at + "/metrics")
			if err != nil {
				return false
			}
			defer answer.Body.Close()
			text, err := io.ReadAll(answer.Body)
			return err == nil && strings.Contains(string(text), what)
		})
	}
	testkit.Must(t, syscall.Kill(os.Getpid(), syscall.SIGTERM))
	if status := <-ended; status != 1 || errs.String() != "" {
		t.Error(status, errs.String())
	}
}

// startWithMetrics runs an agent with a page for Prometheus at a free address, until it runs or has ended. It returns
// that address, the agent's errors, and the channel that receives its status. (Another process may use the port before
// the agent does.)
func startWithMetrics(t *testing.T) (at string, errs *testkit.Output, ended chan int) {
	t.Helper()
	free, err := net.Listen("tcp", "127.0.0.1:0")
	testkit.Must(t, err)
	testkit.Must(t, free.Close())
	at, errs, ended = free.Addr().String(), &testkit.Output{}, make(chan int, 1)
	var out testkit.Output
	go func() {
		ended <- Main([]string{"-node", "a", "-bind", "127.0.0.1:0", "-rpc-addr", "127.0.0.1:0", "-prometheus-addr", at}, &out, errs)
	}()
	testkit.Eventually(t, "the agent runs", func() bool { return out.Has("Log data will now stream") || len(ended) > 0 })
	return at, errs, ended
}

func TestMainSignals(t *testing.T) {
	// (without this, a signal that arrives after the agent's end would end the tests)
	caught := make(chan os.Signal, 1)
	signal.Notify(caught, syscall.SIGINT, syscall.SIGTERM, syscall.SIGHUP)
	defer signal.Stop(caught)
	for _, test := range []struct {
		signal syscall.Signal
		words  []string
		status int
		says   string
		fault  string
	}{
		{syscall.SIGINT, nil, 0, "graceful leave", ""},
		{syscall.SIGTERM, nil, 1, "Shutdown without a Leave", ""},
		{
			syscall.SIGTERM, []string{"-snapshot"}, 3, "Shutdown without a Leave",
			"kitchenrue-agent: the snapshot was changed from outside: ",
		},
		{syscall.SIGINT, []string{"-snapshot"}, 3, "graceful leave", "isn't there any more\n"},
	} {
		var out, errs testkit.Output
		ended := make(chan int, 1)
		path := filepath.Join(t.TempDir(), "snapshot")
		words := append([]string{"-node", "a", "-bind", "127.0.0.1:0", "-rpc-addr", "127.0.0.1:0"}, test.words...)
		if test.words != nil {
			words = append(words, path)
		}
		go func() {
			ended <- Main(words, &out, &errs)
		}()
		testkit.Eventually(t, "the agent runs", func() bool { return strings.Contains(out.String(), "Log data will now stream") })
		send := func(sent syscall.Signal) {
			testkit.Must(t, syscall.Kill(os.Getpid(), sent))
			name := fmt.Sprint("==> Caught signal: ", sent)
			testkit.Eventually(t, name, func() bool { return out.Has(name) })
		}
		send(syscall.SIGHUP)
		testkit.Eventually(t, "it is reloaded", func() bool { return out.Has("==> Reloaded the configuration.") })
		if test.words != nil {
			// Before each write of members, and every ten seconds, the node checks whether the snapshot was changed. If
			// it noticed the missing file then, it would end before the signal arrives.
			testkit.Eventually(
				t, "the node is in its snapshot", func() bool { return strings.Contains(testkit.Read(t, path), "alive: a ") },
			)
			testkit.Must(t, os.Remove(path))
		}
		send(test.signal)
		select {
		case status := <-ended:
			if status != test.status || !strings.Contains(out.String(), test.says) || !strings.Contains(errs.String(), test.fault) ||
				(test.fault == "") != (errs.String() == "") {
				t.Errorf("%v: %d %s %s", test.signal, status, &out, &errs)
			}
		case <-time.After(2 * time.Minute):
			t.Fatal("the agent doesn't end")
		}
	}
}

// The configuration's limits, protocol version and switches reach the node.
func TestLimitsOfTheNode(t *testing.T) {
	conf := parseConfig(t)
	conf.UserEventSizeLimit, conf.QuerySizeLimit, conf.QueryResponseSizeLimit = 700, 2000, 3000
	conf.Protocol, conf.DisableCoordinates, conf.DisableNameResolution, conf.KeepEventsSize = 4, true, true, 1<<20
	conf.MaxMembers, conf.MaxNamesPerAddress = 77, 7
	a := &App{config: conf, tags: &tags{}, log: logs.New(&testkit.Output{}, logs.Trace)}
	found, _, err := a.nodeConfig(nil)
	if err != nil || found.UserEventSizeLimit != 700 || found.QuerySizeLimit != 2000 || found.QueryResponseSizeLimit != 3000 ||
		found.KeepEvents {
		t.Errorf("%+v %v", found, err)
	}
	if found.ProtocolVersion != 4 || !found.DisableCoordinates || found.EnableNameConflictResolution || found.KeepEventsSize != 1<<20 ||
		found.Guard.Members != 77 ||
		found.Guard.NamesPerAddress != 7 {
		t.Errorf("%+v", found)
	}
}
