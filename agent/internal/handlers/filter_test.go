package handlers

import (
	"strings"
	"testing"

	"kitchenrue.example/serf"
)

func TestFilters(t *testing.T) {
	join := serf.MemberEvent{Type: serf.EventMemberJoin}
	deploy := serf.UserEvent{Name: "deploy"}
	load := &serf.Query{Name: "load"}
	for _, test := range []struct {
		text               string
		join, deploy, load bool
	}{
		{"", true, true, true},
		{"*", true, true, true},
		{"member-join", true, false, false},
		{"member-leave,member-failed,member-update,member-reap", false, false, false},
		{"user", false, true, false},
		{"user:deploy", false, true, false},
		{"user:other", false, false, false},
		{"user:dep,query:lo,user:deploys", false, false, false},
		{"query", false, false, true},
		{"query:load,member-join", true, false, true},
		{"query:deploy", false, false, false},
		{"user:a:b", false, false, false},
	} {
		filters, err := ParseFilters(test.text)
		if err != nil {
			t.Errorf("%q: %v", test.text, err)
			continue
		}
		if filters.Matches(join) != test.join || filters.Matches(deploy) != test.deploy || filters.Matches(load) != test.load {
			t.Errorf("%q", test.text)
		}
	}
	for _, text := range []string{"foo", "user:", "query:", "member-join:x", "*:x", "user,", " user", "member"} {
		if _, err := ParseFilters(text); err == nil {
			t.Errorf("%q is accepted", text)
		}
	}
}

func TestScripts(t *testing.T) {
	for text, want := range map[string]Script{
		"run":                         {Filters{{"*", ""}}, "run", "run"},
		"user=run a=b":                {Filters{{"user", ""}}, "run a=b", "run"},
		"user:deploy,member-join=run": {Filters{{"user", "deploy"}, {"member-join", ""}}, "run", "run"},
	} {
		found, err := ParseScript(text)
		if err != nil || found.Command != want.Command || found.Name != want.Name || len(found.Filters) != len(want.Filters) {
			t.Errorf("%q: %v %v", text, found, err)
			continue
		}
		for i, filter := range want.Filters {
			if found.Filters[i] != filter {
				t.Errorf("%q: %v", text, found)
			}
		}
	}
	for text, says := range map[string]string{"": "no script", "user=": "no script", "A=b run": `"A" is not an event`} {
		if _, err := ParseScript(text); err == nil || !strings.Contains(err.Error(), says) {
			t.Errorf("%q: %v", text, err)
		}
	}
}
