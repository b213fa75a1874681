// Package handlers runs the operator's scripts.
package handlers

import (
	"fmt"
	"strings"

	"kitchenrue.example/serf"
)

// Filter matches the events of a kind, and, if Name isn't empty, with this name. The kind "*" matches all.
type Filter struct {
	Kind string
	Name string
}

// Matches reports whether the filter matches an event.
func (f Filter) Matches(e serf.Event) bool {
	return matchesKind(f.Kind, e) && (f.Name == "" || f.Name == nameOf(e))
}

// nameOf returns the name of a user event or a query.
func nameOf(e serf.Event) string {
	if event, ok := userEvent(e); ok {
		return event.Name
	}
	if query, ok := e.(*serf.Query); ok {
		return query.Name
	}
	return ""
}

// Filters match an event if at least one of them matches it.
type Filters []Filter

// Matches reports whether a filter matches the event.
func (filters Filters) Matches(e serf.Event) bool {
	for _, filter := range filters {
		if filter.Matches(e) {
			return true
		}
	}
	return false
}

// ParseFilters reads filters separated by commas: *, a kind, user:NAME or query:NAME. An empty text is *.
func ParseFilters(text string) (Filters, error) { return parseFilters(text, "") }

// parseFilters is ParseFilters with additional kinds: if extraKinds is handlerKindsHint, it also accepts the kinds of filters
// that only handlers can have, with or without a name.
func parseFilters(text, extraKinds string) (Filters, error) {
	if text == "" {
		return Filters{{Kind: "*"}}, nil
	}
	var filters Filters
	for _, word := range strings.Split(text, ",") {
		kind, name, hasName := strings.Cut(word, ":")
		isExtra := (kind == unfinishedKind || kind == rerunKind) && extraKinds != ""
		switch {
		case kind == "user", kind == "query", isExtra:
			if hasName && name == "" {
				return nil, fmt.Errorf("the filter %q has no name after the colon", word)
			}
		case kind == "*", kind == "member-join", kind == "member-leave", kind == "member-failed", kind == "member-update",
			kind == "member-reap":
			if hasName {
				return nil, fmt.Errorf("the filter %q doesn't accept a name", word)
			}
		default:
			return nil, fmt.Errorf(
				"%q is not an event: use *, member-join, member-leave, member-failed, member-update, member-reap, user, user:NAME, query or query:NAME%s",
				word, extraKinds,
			)
		}
		filters = append(filters, Filter{kind, name})
	}
	return filters, nil
}

// handlerKindsHint is the part of an error message that lists the kinds of filters that only handlers can have.
const handlerKindsHint = ", or for a user event unfinished:NAME or rerun:NAME"

// Script is a handler. /bin/sh -c runs Command for each event that Filters match. Name is its unique name in metrics.
type Script struct {
	Filters Filters
	Command string
	Name    string
}

// ParseScript reads SCRIPT, or FILTERS=SCRIPT.
func ParseScript(text string) (Script, error) {
	filters, command, ok := strings.Cut(text, "=")
	if !ok {
		filters, command = "*", text
	}
	if strings.TrimSpace(command) == "" {
		return Script{}, fmt.Errorf("the handler %q has no script", text)
	}
	parsed, err := parseFilters(filters, handlerKindsHint)
	if err != nil {
		return Script{}, fmt.Errorf("the handler %q: %w", text, err)
	}
	return Script{parsed, command, nameOfCommand(command)}, nil
}

// Names returns the names in the scripts' filters of a kind, user or query.
func Names(scripts []Script, kind string) (names []string) {
	for _, script := range scripts {
		for _, filter := range script.Filters {
			isOfKind := filter.Kind == kind || filter.Kind == rerunKind && kind == "user"
			if isOfKind && filter.Name != "" {
				names = append(names, filter.Name)
			}
		}
	}
	return names
}

// ParseScripts reads several scripts.
func ParseScripts(texts []string) ([]Script, error) {
	scripts := make([]Script, 0, len(texts))
	for _, text := range texts {
		script, err := ParseScript(text)
		if err != nil {
			return nil, err
		}
		scripts = append(scripts, script)
	}
	nameScripts(scripts)
	return scripts, nil
}
