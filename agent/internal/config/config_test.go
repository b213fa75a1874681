package config

import (
	"errors"
	"fmt"
	"io"
	"path/filepath"
	"reflect"
	"strings"
	"testing"
	"time"

	"kitchenrue.example/agent/internal/testkit"
)

func TestFlags(t *testing.T) {
	words := strings.Fields("-node a -iface eth0 -bind 127.0.0.1:1 -join x -join y -rejoin -snapshot s -tag k=v=w -role web -retry-max 3 " +
		"-retry-interval 5s -log-level debug -profile wan -event-handler user:deploy=run -disable-compression -replay -keep-events")
	found, err := Parse(words, io.Discard)
	testkit.Must(t, err)
	want := Default()
	want.Interface = "eth0"
	want.NodeName, want.Bind, want.StartJoin, want.Rejoin, want.Snapshot = "a", "127.0.0.1:1", []string{"x", "y"}, true, "s"
	want.Tags, want.RetryMax, want.RetryInterval = map[string]string{"k": "v=w", "role": "web"}, 3, 5*time.Second
	want.LogLevel, want.Profile, want.EventHandlers = "DEBUG", "wan", []string{"user:deploy=run"}
	want.Compression, want.Replay, want.KeepEvents = false, true, true
	if !reflect.DeepEqual(found, want) {
		t.Errorf("%+v\n%+v", found, want)
	}
}

func TestFlagsOverrideFiles(t *testing.T) {
	folder := t.TempDir()
	one := testkit.Write(t, filepath.Join(folder, "one"), `{"node_name": "one", "start_join": ["x"], "tags": {"a": "1"},
		"rejoin_after_leave": true, "interface": "eth0", "bind": "", "advertise": "", "rpc_addr": "", "snapshot_path": "s",
		"retry_max_attempts": 7, "reconnect_timeout": "1h", "leave_on_terminate": true, "keep_events": true}`)
	testkit.Write(t, filepath.Join(folder, "b.json"), `{"node_name": "b", "start_join": ["z"], "tags": null}`)
	testkit.Write(
		t, filepath.Join(folder, "a.json"), `{"node_name": "a", "start_join": ["y"], "rpc_auth": "token", "enable_compression": false}`,
	)
	testkit.Write(t, filepath.Join(folder, "c.text"), `{`)
	found, err := Parse([]string{"-join", "w", "-config-file", one, "-config-dir", folder, "-tag", "b=2"}, io.Discard)
	testkit.Must(t, err)
	if found.NodeName != "b" || !reflect.DeepEqual(found.StartJoin, []string{"x", "y", "z", "w"}) || found.RPCAuth != "token" {
		t.Errorf("%+v", found)
	}
	if !reflect.DeepEqual(found.Tags, map[string]string{"a": "1", "b": "2"}) || found.RetryMax != 7 || found.ReconnectTimeout != time.Hour {
		t.Errorf("%+v", found)
	}
	if found.Interface != "eth0" || found.Bind != Default().Bind || found.RPCAddr != Default().RPCAddr || found.Advertise != "" {
		t.Errorf("%+v", found)
	}
	if !found.LeaveOnTerminate || found.Compression || !found.Rejoin || !found.KeepEvents {
		t.Errorf("%+v", found)
	}
}

func TestRefusals(t *testing.T) {
	folder := t.TempDir()
	files := 0
	file := func(text string) string {
		files++
		return "-config-file " + testkit.Write(t, filepath.Join(folder, fmt.Sprint(files)), text)
	}
	for _, test := range []struct{ words, says string }{
		{"-foo", "-foo"},
		{"word", `unexpected argument "word"`},
		{"-rejoin true -snapshot s", `unexpected argument "true"`},
		{"-node " + strings.Repeat("x", 129), "must have at most 128"},
		{"-bind a:b", "-bind"},
		{"-bind 1.2.3.4:70000", "is not a port"},
		{"-rpc-addr ::::", "-rpc-addr"},
		{"-advertise a:b", "-advertise"},
		{"-log-level loud", `"LOUD"`},
		{"-profile fast", "-profile"},
		{"-protocol 6", "-protocol: 6 is not between 2 and 5"},
		{"-protocol 1", "-protocol: 1 is not between 2 and 5"},
		{"-protocol x", "is not a number"},
		{"-tag k", "key=value"},
		{"-tag =v", "key=value"},
		{"-tag k=v -tags-file f", "-tags-file"},
		{"-encrypt %", "-encrypt"},
		{"-encrypt QUJD", "3"},
		{"-encrypt cg8StVXbQJ0gPvMd9o7yrg== -keyring-file /dev/null", "leave -encrypt out"},
		{"-rejoin", "-rejoin needs -snapshot"},
		{"-keep-events", "-keep-events needs -snapshot"},
		{"-keep-events=maybe -snapshot s", "neither true nor false"},
		{"-keep-events-size 1048575", "-keep-events-size: 1048575 is not between 1048576 and 1073741824"},
		{"-record-size 4095", "-record-size: 4095 is below 4096"},
		{"-record-size much", "is not a number"},
		{"-retry-max x", "is not a number"},
		{"-retry-max -1", "below 0"},
		{"-retry-interval 3", "is not a duration"},
		{"-retry-interval 0s", "not above 0"},
		{"-handler-timeout -1s", "below 0"},
		{"-replay=maybe", "neither true nor false"},
		{"-discover x", "-join"},
		{"-bind :7946", `-bind: ":7946" names no host; 0.0.0.0:7946 would be all`},
		{"-bind []:1", "names no host"},
		{"-rpc-addr :7373", `-rpc-addr: ":7373" names no host; 0.0.0.0:7373 would be all`},
		{"-prometheus-addr :7374", `-prometheus-addr: ":7374" names no host`},
		{"-advertise :7946", "-advertise: \":7946\" names no host"},
		{"-config-file /nowhere", "no such file"},
		{"-config-file /", "is a directory"},
		{"-config-dir /nowhere", "no such file"},
		{file(`[]`), "not a JSON object"},
		{file(`{"foo": 1}`), `"foo"`},
		{file(`{"discover": "x"}`), `"discover": not supported: agents aren't`},
		{file(`{"mdns": {}}`), `"mdns" is not supported: agents aren't`},
		{file(`{"retry_max_attempts": "x"}`), "is not a number"},
		{file(`{"tags": {"k": {}}}`), "neither a string"},
		{file(`{"start_join": [[]]}`), "neither a string"},
		{file(`{"user_event_size_limit": 9217}`), "9216"},
		{file(`{"query_size_limit": 9217}`), "query_size_limit: 9217 is not between 1 and 9216"},
		{file(`{"query_size_limit": 0}`), "query_size_limit: 0"},
		{file(`{"query_response_size_limit": 9217}`), "query_response_size_limit: 9217 is not between 1 and 9216"},
		{file(`{"query_response_size_limit": -1}`), "query_response_size_limit: -1"},
		{file(`{"query_response_size_limit": "x"}`), "is not a number"},
	} {
		_, err := Parse(strings.Fields(test.words), io.Discard)
		if err == nil || !strings.Contains(err.Error(), test.says) {
			t.Errorf("%s: %v", test.words, err)
		}
	}
}

// Settings of Serf that are empty or false are accepted, and so are those that the agent supports.
func TestEmptySettings(t *testing.T) {
	path := filepath.Join(t.TempDir(), "file")
	for text, holds := range map[string]func(c Config) bool{
		`{"disable_coordinates": true}`:      func(c Config) bool { return c.DisableCoordinates },
		`{"disable_coordinates": false}`:     func(c Config) bool { return !c.DisableCoordinates },
		`{"disable_name_resolution": false}`: func(c Config) bool { return !c.DisableNameResolution },
		`{"disable_name_resolution": true}`:  func(c Config) bool { return c.DisableNameResolution },
		`{"enable_syslog": false, "syslog_facility": "", "discover": "", "interface": "", ` +
			`"role": "", "advertise": ""}`: func(c Config) bool {
			return !c.Syslog && c.SyslogFacility == "LOCAL0"
		},
		`{"enable_syslog": true, "syslog_facility": "DAEMON"}`: func(c Config) bool { return c.Syslog && c.SyslogFacility == "DAEMON" },
		`{"statsd_addr": "", "statsite_addr": "", "prometheus_addr": ""}`: func(c Config) bool {
			return c.StatsdAddr+c.StatsiteAddr+c.PrometheusAddr == ""
		},
		`{"statsd_addr": "a:1", "statsite_addr": "b:2", "prometheus_addr": "c:3"}`: func(c Config) bool {
			return c.StatsdAddr == "a:1" && c.StatsiteAddr == "b:2" && c.PrometheusAddr == "c:3"
		},
		`{"protocol": 4}`: func(c Config) bool { return c.Protocol == 4 },
	} {
		found, err := Parse([]string{"-config-file", testkit.Write(t, path, text)}, io.Discard)
		if err != nil || !holds(found) {
			t.Error(text, err)
		}
	}
	for words, holds := range map[string]func(c Config) bool{
		"-syslog": func(c Config) bool { return c.Syslog }, "-protocol 2": func(c Config) bool { return c.Protocol == 2 },
		"-discover= -syslog=false": func(c Config) bool { return !c.Syslog && c.Protocol == 5 },
	} {
		if found, err := Parse(strings.Fields(words), io.Discard); err != nil || !holds(found) {
			t.Error(words, err)
		}
	}
}

func TestHelp(t *testing.T) {
	var help strings.Builder
	if _, err := Parse([]string{"-help"}, &help); !errors.Is(err, ErrHelp) {
		t.Fatal(err)
	}
	for _, setting := range settings {
		if setting.flag != "" && !strings.Contains(help.String(), "-"+setting.flag+" ") {
			t.Errorf("-%s is not in the help", setting.flag)
		}
	}
}

func TestAddresses(t *testing.T) {
	for text, want := range map[string]Address{
		"1.2.3.4": {"1.2.3.4", 5}, "1.2.3.4:6": {"1.2.3.4", 6}, "[::1]": {"::1", 5}, "[::1]:6": {"::1", 6}, "::1": {"::1", 5},
		":6": {"", 6}, "name": {"name", 5}, "name:0": {"name", 0},
	} {
		if found, err := ParseAddress(text, 5); err != nil || found != want {
			t.Errorf("%s: %v %v", text, found, err)
		}
	}
}

// Each field of the configuration has the key of a setting. NeedRestart returns the key of a changed field unless a
// reload applies the change.
func TestNeedRestart(t *testing.T) {
	before := Default()
	if changed := before.NeedRestart(Default()); len(changed) > 0 {
		t.Error("the same configuration differs in", changed)
	}
	fields := reflect.TypeOf(before)
	for i := 0; i < fields.NumField(); i++ {
		name := fields.Field(i).Name
		key, ok := keyOfField[name]
		if !ok || key != "" && settingByKey(key) == nil {
			t.Errorf("%s has the key %q", name, key)
		}
		after := Default()
		switch field := reflect.ValueOf(&after).Elem().Field(i); field.Kind() {
		case reflect.String:
			field.SetString("other")
		case reflect.Bool:
			field.SetBool(!field.Bool())
		case reflect.Slice:
			field.Set(reflect.ValueOf([]string{"other"}))
		case reflect.Map:
			field.Set(reflect.ValueOf(map[string]string{"other": ""}))
		default:
			field.SetInt(field.Int() + 1)
		}
		var want []string
		if key != "" && key != "tags" && key != "event_handlers" && key != "log_level" {
			want = []string{key}
		}
		if changed := before.NeedRestart(after); !reflect.DeepEqual(changed, want) {
			t.Error(name, changed, want)
		}
	}
}
