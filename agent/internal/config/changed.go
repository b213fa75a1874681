package config

import (
	"reflect"
	"sort"
)

// keyOfField maps each field of Config to its key in a configuration file. The key is empty if the field is not a setting.
var keyOfField = map[string]string{
	"NodeName": "node_name", "Bind": "bind", "Advertise": "advertise", "Interface": "interface", "Tags": "tags",
	"TagsFile": "tags_file", "EncryptKey": "encrypt_key", "KeyringFile": "keyring_file", "LogLevel": "log_level",
	"Syslog": "enable_syslog", "SyslogFacility": "syslog_facility", "StatsiteAddr": "statsite_addr", "StatsdAddr": "statsd_addr",
	"PrometheusAddr": "prometheus_addr", "Protocol": "protocol", "RPCAddr": "rpc_addr", "RPCAuth": "rpc_auth",
	"EventHandlers": "event_handlers", "StartJoin": "start_join", "RetryJoin": "retry_join", "RetryInterval": "retry_interval",
	"RetryMax": "retry_max_attempts", "Replay": "replay_on_join", "Rejoin": "rejoin_after_leave", "Snapshot": "snapshot_path",
	"KeepEvents": "keep_events", "KeepEventsSize": "keep_events_size", "TrackHandlers": "track_handlers", "MaxMembers": "max_members",
	"MaxNamesPerAddress": "max_names_per_address", "Record": "record", "RecordSize": "record_size", "Profile": "profile",
	"LeaveOnTerminate": "leave_on_terminate", "SkipLeaveOnInterrupt": "skip_leave_on_interrupt",
	"ReconnectInterval": "reconnect_interval", "ReconnectTimeout": "reconnect_timeout", "TombstoneTimeout": "tombstone_timeout",
	"BroadcastTimeout": "broadcast_timeout", "DisableCoordinates": "disable_coordinates",
	"DisableNameResolution": "disable_name_resolution", "Compression": "enable_compression",
	"UserEventSizeLimit": "user_event_size_limit", "QuerySizeLimit": "query_size_limit",
	"QueryResponseSizeLimit": "query_response_size_limit", "HandlerTimeout": "handler_timeout", "ShowVersion": "", "CheckOnly": "",
}

// reloaded has the fields of Config that a reload applies while the agent runs.
var reloaded = map[string]bool{"Tags": true, "EventHandlers": true, "LogLevel": true}

// NeedRestart returns the keys of the settings that differ in another configuration and that the agent reads only when
// it starts.
func (c *Config) NeedRestart(other Config) (changed []string) {
	ours, theirs := reflect.ValueOf(*c), reflect.ValueOf(other)
	for i := 0; i < ours.NumField(); i++ {
		name := ours.Type().Field(i).Name
		if keyOfField[name] != "" && !reloaded[name] && !reflect.DeepEqual(ours.Field(i).Interface(), theirs.Field(i).Interface()) {
			changed = append(changed, keyOfField[name])
		}
	}
	sort.Strings(changed)
	return changed
}
