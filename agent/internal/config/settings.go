package config

import (
	"fmt"
	"strconv"
	"strings"
	"time"

	"kitchenrue.example/guard"
	"kitchenrue.example/serf"
)

// setting is one setting of the configuration. It has a flag, a key in a file, or both.
type setting struct {
	flag, key, help string
	// isSwitch is true if the flag needs no value.
	isSwitch bool
	set      func(c *Config, value string) error
}

// textSetter returns a set function that stores the value in a field unchanged. The setters below parse the value
// first.
func textSetter(field func(*Config) *string) func(*Config, string) error {
	return func(c *Config, value string) error {
		*field(c) = value
		return nil
	}
}

// unlessEmpty returns a set function that keeps the default if the value is empty, as Serf does.
func unlessEmpty(set func(*Config, string) error) func(*Config, string) error {
	return func(c *Config, value string) error {
		if value == "" {
			return nil
		}
		return set(c, value)
	}
}

// listSetter returns a set function that appends the value to a field.
func listSetter(field func(*Config) *[]string) func(*Config, string) error {
	return func(c *Config, value string) error {
		*field(c) = append(*field(c), value)
		return nil
	}
}

func booleanSetter(field func(*Config) *bool) func(*Config, string) error {
	return func(c *Config, value string) error {
		parsed, err := strconv.ParseBool(value)
		if err != nil {
			return fmt.Errorf("%q is neither true nor false", value)
		}
		*field(c) = parsed
		return nil
	}
}

func durationSetter(field func(*Config) *time.Duration) func(*Config, string) error {
	return func(c *Config, value string) error {
		parsed, err := time.ParseDuration(value)
		if err != nil {
			return fmt.Errorf("%q is not a duration such as 30s", value)
		}
		*field(c) = parsed
		return nil
	}
}

func numberSetter(field func(*Config) *int) func(*Config, string) error {
	return func(c *Config, value string) error {
		parsed, err := strconv.Atoi(value)
		if err != nil {
			return fmt.Errorf("%q is not a number", value)
		}
		*field(c) = parsed
		return nil
	}
}

// setTag sets the tag of a value of the form key=value.
func setTag(c *Config, value string) error {
	key, rest, ok := strings.Cut(value, "=")
	if !ok || key == "" {
		return fmt.Errorf("%q is not of the form key=value", value)
	}
	c.Tags[key] = rest
	return nil
}

// setRole sets the tag role.
func setRole(c *Config, value string) error {
	c.Tags["role"] = value
	return nil
}

func setLogLevel(c *Config, value string) error {
	c.LogLevel = strings.ToUpper(value)
	return nil
}

// acceptOnlyEmpty returns the set function of a setting that is accepted only if it is empty or false. The error has the
// reason.
func acceptOnlyEmpty(reason string) func(*Config, string) error {
	return func(_ *Config, value string) error {
		if value == "" || value == "false" {
			return nil
		}
		return fmt.Errorf("not supported: %s", reason)
	}
}

// setDisableCompression turns compression off if the value is true, and on if it is false.
func setDisableCompression(c *Config, value string) error {
	parsed, err := strconv.ParseBool(value)
	if err != nil {
		return fmt.Errorf("%q is neither true nor false", value)
	}
	c.Compression = !parsed
	return nil
}

// settings are all settings, in the order of the help text.
var settings = []setting{
	{"node", "node_name", "name of this node, unique in the cluster", false, textSetter(func(c *Config) *string { return &c.NodeName })},
	{"bind", "bind", "address or name at which gossip listens, default 0.0.0.0:7946", false,
		unlessEmpty(textSetter(func(c *Config) *string { return &c.Bind }))},
	{"iface", "interface", "interface that has the address of -bind; with -bind 0.0.0.0 its address is used", false,
		textSetter(func(c *Config) *string { return &c.Interface })},
	{"advertise", "advertise", "address or name at which other nodes reach this one", false,
		textSetter(func(c *Config) *string { return &c.Advertise })},
	{"join", "start_join", "address of an agent to join once at the start (repeatable)", false,
		listSetter(func(c *Config) *[]string { return &c.StartJoin })},
	{"retry-join", "retry_join", "address of an agent to join, retried until one is joined (repeatable)", false,
		listSetter(func(c *Config) *[]string { return &c.RetryJoin })},
	{"retry-interval", "retry_interval", "time between two attempts of -retry-join, default 30s", false,
		durationSetter(func(c *Config) *time.Duration { return &c.RetryInterval })},
	{"retry-max", "retry_max_attempts", "maximum number of retries, default 0 for no limit", false,
		numberSetter(func(c *Config) *int { return &c.RetryMax })},
	{"replay", "replay_on_join", "hand out the events from before a join too", true,
		booleanSetter(func(c *Config) *bool { return &c.Replay })},
	{"rejoin", "rejoin_after_leave", "join the members of the snapshot again even after a leave", true,
		booleanSetter(func(c *Config) *bool { return &c.Rejoin })},
	{"snapshot", "snapshot_path", "file that keeps the clocks and the members", false,
		textSetter(func(c *Config) *string { return &c.Snapshot })},
	{"keep-events", "keep_events", "keep events in the snapshot too, so that a restart resumes with them", true,
		booleanSetter(func(c *Config) *bool { return &c.KeepEvents })},
	{"track-handlers", "track_handlers", "with -keep-events, also keep which handlers have ended, default true", true,
		booleanSetter(func(c *Config) *bool { return &c.TrackHandlers })},
	{"keep-events-size", "keep_events_size",
		"maximum size of the kept events in bytes, default " + fmt.Sprint(serf.DefaultKeepEventsSize), false,
		numberSetter(func(c *Config) *int { return &c.KeepEventsSize })},
	{"max-members", "max_members",
		"maximum number of members, above which new ones are not admitted, default " + fmt.Sprint(serf.DefaultMaxMembers), false,
		numberSetter(func(c *Config) *int { return &c.MaxMembers })},
	{"max-names-per-address", "max_names_per_address",
		"maximum number of members at one IP address, default " + fmt.Sprint(guard.Defaults().NamesPerAddress), false,
		numberSetter(func(c *Config) *int { return &c.MaxNamesPerAddress })},
	{"record", "record", "file that records the calls to the proved agent and its replies", false,
		textSetter(func(c *Config) *string { return &c.Record })},
	{"record-size", "record_size", "size in bytes at which the record is rotated, default " + fmt.Sprint(defaultRecordSize), false,
		numberSetter(func(c *Config) *int { return &c.RecordSize })},
	{"event-handler", "event_handlers", "SCRIPT, or FILTERS=SCRIPT (repeatable)", false,
		listSetter(func(c *Config) *[]string { return &c.EventHandlers })},
	{"handler-timeout", "handler_timeout", "time after which a handler is ended, default 10m; 0 for never", false,
		durationSetter(func(c *Config) *time.Duration { return &c.HandlerTimeout })},
	{"tag", "tags", "tag of this node, as key=value (repeatable)", false, setTag},
	{"role", "role", "value of the tag role", false, setRole},
	{"tags-file", "tags_file", "file that keeps the tags between starts", false,
		textSetter(func(c *Config) *string { return &c.TagsFile })},
	{"encrypt", "encrypt_key", "encryption key of 16, 24 or 32 bytes in base64", false,
		textSetter(func(c *Config) *string { return &c.EncryptKey })},
	{"keyring-file", "keyring_file", "file that keeps the encryption keys", false,
		textSetter(func(c *Config) *string { return &c.KeyringFile })},
	{"rpc-addr", "rpc_addr", "address or name that accepts requests of Serf's command line, default 127.0.0.1:7373", false,
		unlessEmpty(textSetter(func(c *Config) *string { return &c.RPCAddr }))},
	{"rpc-auth", "rpc_auth", "token that the command line has to send", false, textSetter(func(c *Config) *string { return &c.RPCAuth })},
	{"log-level", "log_level", "trace, debug, info, warn or err; default info", false, setLogLevel},
	{"syslog", "enable_syslog", "send the log to the machine's syslog too", true,
		booleanSetter(func(c *Config) *bool { return &c.Syslog })},
	{"", "syslog_facility", "", false, unlessEmpty(textSetter(func(c *Config) *string { return &c.SyslogFacility }))},
	{"profile", "profile", "timing of gossip: lan, wan or local; default lan", false,
		textSetter(func(c *Config) *string { return &c.Profile })},
	{"protocol", "protocol", "version of Serf's protocol, 2 to 5; default 5", false,
		numberSetter(func(c *Config) *int { return &c.Protocol })},
	{"broadcast-timeout", "broadcast_timeout", "how long a leave may wait until it is sent, default 5s", false,
		durationSetter(func(c *Config) *time.Duration { return &c.BroadcastTimeout })},
	{"disable-compression", "", "don't compress gossip", true, setDisableCompression},
	{"prometheus-addr", "prometheus_addr", "address of a metrics page for Prometheus, default port 7374; off by default", false,
		textSetter(func(c *Config) *string { return &c.PrometheusAddr })},
	{"", "statsite_addr", "", false, textSetter(func(c *Config) *string { return &c.StatsiteAddr })},
	{"", "statsd_addr", "", false, textSetter(func(c *Config) *string { return &c.StatsdAddr })},
	{"version", "", "print the version", true, booleanSetter(func(c *Config) *bool { return &c.ShowVersion })},
	{"check", "", "check the configuration, start nothing, and end", true, booleanSetter(func(c *Config) *bool { return &c.CheckOnly })},
	{"", "enable_compression", "", false, booleanSetter(func(c *Config) *bool { return &c.Compression })},
	{"", "disable_coordinates", "", false, booleanSetter(func(c *Config) *bool { return &c.DisableCoordinates })},
	{"", "disable_name_resolution", "", false, booleanSetter(func(c *Config) *bool { return &c.DisableNameResolution })},
	{"discover", "discover", "accepted only if it is empty", false, acceptOnlyEmpty(noMulticast)},
	{"", "leave_on_terminate", "", false, booleanSetter(func(c *Config) *bool { return &c.LeaveOnTerminate })},
	{"", "skip_leave_on_interrupt", "", false, booleanSetter(func(c *Config) *bool { return &c.SkipLeaveOnInterrupt })},
	{"", "reconnect_interval", "", false, durationSetter(func(c *Config) *time.Duration { return &c.ReconnectInterval })},
	{"", "reconnect_timeout", "", false, durationSetter(func(c *Config) *time.Duration { return &c.ReconnectTimeout })},
	{"", "tombstone_timeout", "", false, durationSetter(func(c *Config) *time.Duration { return &c.TombstoneTimeout })},
	{"", "user_event_size_limit", "", false, numberSetter(func(c *Config) *int { return &c.UserEventSizeLimit })},
	{"", "query_size_limit", "", false, numberSetter(func(c *Config) *int { return &c.QuerySizeLimit })},
	{"", "query_response_size_limit", "", false, numberSetter(func(c *Config) *int { return &c.QueryResponseSizeLimit })},
}

const noMulticast = "agents aren't discovered by multicast; name some with -join or -retry-join"

// refusedKeys has Serf's keys that are never accepted, each with the reason.
var refusedKeys = map[string]string{
	"mdns":         noMulticast,
	"keyring_pass": "keys are stored unencrypted",
}
