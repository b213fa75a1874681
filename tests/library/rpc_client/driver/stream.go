package main

import (
	"fmt"
	"net"
	"reflect"
	"sort"
	"strings"
	"sync"
	"time"

	"github.com/hashicorp/serf/client"
)

// record is the form of an event in a stream.
type record = map[string]interface{}

// stream collects the records that arrive.
type stream struct {
	handle client.StreamHandle

	mu       sync.Mutex
	records  []record
	hasEnded bool
}

// follow starts a stream with this filter, and collects its records.
func (r *run) follow(on *agent, filter string) *stream { return r.followBy(on.RPCClient, filter) }

// followBy is follow with a separate client.
func (r *run) followBy(by *client.RPCClient, filter string) *stream {
	s, records := &stream{}, make(chan map[string]interface{}, 1024)
	var err error
	if s.handle, err = by.Stream(filter, records); err != nil {
		r.fail(fmt.Errorf("a stream of %s: %w", filter, err))
	}
	go func() {
		for one := range records {
			s.mu.Lock()
			s.records = append(s.records, one)
			s.mu.Unlock()
		}
		s.mu.Lock()
		defer s.mu.Unlock()
		s.hasEnded = true
	}()
	return s
}

func (s *stream) isOver() bool {
	s.mu.Lock()
	defer s.mu.Unlock()
	return s.hasEnded
}

// firstRecord returns the first record that matches, or nil.
func (s *stream) firstRecord(matches func(record) bool) record {
	s.mu.Lock()
	defer s.mu.Unlock()
	for _, one := range s.records {
		if matches(one) {
			return one
		}
	}
	return nil
}

// waitForRecord waits for a record that matches, and returns nil if there is none within the limit.
func (s *stream) waitForRecord(matches func(record) bool) (found record) {
	waitUntil(func() bool {
		found = s.firstRecord(matches)
		return found != nil
	})
	return found
}

// hasEventNamed reports whether a record of an event with this name has arrived.
func (s *stream) hasEventNamed(name string) bool {
	return s.firstRecord(func(one record) bool { return one["Name"] == name }) != nil
}

// kinds returns the kinds of the records, sorted. The kind of a user event includes its name.
func (s *stream) kinds() []string {
	s.mu.Lock()
	defer s.mu.Unlock()
	all := map[string]bool{}
	for _, one := range s.records {
		kind := fmt.Sprint(one["Event"])
		if kind == "user" {
			kind += ":" + fmt.Sprint(one["Name"])
		}
		all[kind] = true
	}
	found := []string{}
	for kind := range all {
		found = append(found, kind)
	}
	sort.Strings(found)
	return found
}

// kindsOf returns the kinds of the records about a member, in their order.
func (s *stream) kindsOf(name string) []string {
	s.mu.Lock()
	defer s.mu.Unlock()
	found := []string{}
	for _, one := range s.records {
		if memberIn(one, name) != nil {
			found = append(found, fmt.Sprint(one["Event"]))
		}
	}
	return found
}

// withoutRepeats returns each kind once, at its first position. On a busy machine, a node may seem to fail more often
// than it does.
func withoutRepeats(kinds []string) []string {
	found, seen := []string{}, map[string]bool{}
	for _, kind := range kinds {
		if !seen[kind] {
			found = append(found, kind)
		}
		seen[kind] = true
	}
	return found
}

// payloadText returns a payload as a string, whatever its type is.
func payloadText(payload interface{}) string {
	if payload == nil {
		return ""
	}
	return fmt.Sprintf("%s", payload)
}

// printRecord waits for the first record of a stream with this name and payload, and prints its fields.
func (r *run) printRecord(filter, name string, payload []byte) {
	found := r.streams[filter].waitForRecord(
		func(one record) bool { return one["Name"] == name && payloadText(one["Payload"]) == string(payload) },
	)
	what := fmt.Sprintf("stream of %s, %s %.8q", filter, name, payload)
	if found == nil {
		r.printFact(what, "it never came")
		return
	}
	isQuery := found["Event"] == "query"
	for _, field := range sortedFields(found) {
		value := typedText(found[field])
		if field == "ID" || field == "LTime" && isQuery {
			value = fmt.Sprintf("%T", found[field])
		}
		r.printFact(what+", "+field, value)
	}
}

// printMember prints the fields of a member, from the records of this kind about it.
func (r *run) printMember(kind, name string) {
	for _, filter := range []string{kind, "*"} {
		var member map[interface{}]interface{}
		found := r.streams[filter].waitForRecord(func(one record) bool {
			member = memberIn(one, name)
			return one["Event"] == kind && member != nil
		})
		what := fmt.Sprintf("stream of %s, %s of %s", filter, kind, name)
		if found == nil {
			r.printFact(what, "it never came")
			continue
		}
		for _, field := range sortedFields(found) {
			r.printFact(what+", "+field, fmt.Sprintf("%T", found[field]))
		}
		inner := record{}
		for field, value := range member {
			inner[fmt.Sprintf("%v, a %T", field, field)] = value
		}
		for _, field := range sortedFields(inner) {
			r.printFact(what+", member, "+field, typedText(inner[field]))
		}
	}
}

// memberIn returns the member with this name in a record, or nil.
func memberIn(one record, name string) map[interface{}]interface{} {
	all, _ := one["Members"].([]interface{})
	for _, each := range all {
		if member, ok := each.(map[interface{}]interface{}); ok && member["Name"] == name {
			return member
		}
	}
	return nil
}

// sortedFields returns the names of a record's fields, sorted.
func sortedFields(record record) []string {
	found := []string{}
	for field := range record {
		found = append(found, field)
	}
	sort.Strings(found)
	return found
}

// typedText returns a value's type and the value. Addresses are written as texts, so that the network in them can be
// replaced.
func typedText(value interface{}) string {
	switch value := value.(type) {
	case []byte:
		if len(value) == net.IPv4len && value[0] == 127 {
			return fmt.Sprintf("%T of an address %v", value, net.IP(value))
		}
		return fmt.Sprintf("%T %q", value, value)
	case net.IP:
		return fmt.Sprintf("%T of %d bytes %v", value, len(value), value)
	case string:
		if len(value) == net.IPv4len && strings.HasPrefix(value, "\x7f") {
			return fmt.Sprintf("%T of an address %v", value, net.IP(value))
		}
		return fmt.Sprintf("%T %q", value, value)
	case map[interface{}]interface{}:
		parts := []string{}
		for key, inner := range value {
			parts = append(parts, typedText(key)+" = "+typedText(inner))
		}
		sort.Strings(parts)
		return fmt.Sprintf("%T %s", value, strings.Join(parts, ", "))
	}
	return fmt.Sprintf("%T %v", value, value)
}

// wholeNumber returns a whole number, whatever its type is.
func wholeNumber(value interface{}) uint64 {
	switch reflected := reflect.ValueOf(value); reflected.Kind() {
	case reflect.Int64:
		return uint64(reflected.Int())
	case reflect.Uint64:
		return reflected.Uint()
	}
	return 0
}

// hasLineWith waits for a line that contains one of these texts. It returns false if the lines end before that, or
// after the limit.
func hasLineWith(lines <-chan string, parts ...string) bool {
	timeout := time.After(limit)
	for {
		select {
		case line, more := <-lines:
			for _, part := range parts {
				if strings.Contains(line, part) {
					return true
				}
			}
			if !more {
				return false
			}
		case <-timeout:
			return false
		}
	}
}

// linesEnd reports whether the lines end within the limit.
func linesEnd(lines <-chan string) bool {
	timeout := time.After(limit)
	for {
		select {
		case _, more := <-lines:
			if !more {
				return true
			}
		case <-timeout:
			return false
		}
	}
}
