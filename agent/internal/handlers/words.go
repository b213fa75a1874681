package handlers

import (
	"fmt"
	"sort"
	"strings"

	"kitchenrue.example/serf"
)

// Self is what a script learns about its own node.
type Self struct {
	Name string
	Tags map[string]string
}

// environment returns the environment variables for an event, as Serf sets them.
func environment(self Self, e serf.Event) []string {
	variables := []string{
		"SERF_EVENT=" + kindOf(e),
		"SERF_SELF_NAME=" + self.Name,
		"SERF_SELF_ROLE=" + self.Tags["role"],
	}
	for _, key := range sortedKeys(self.Tags) {
		variables = append(variables, "SERF_TAG_"+variableName(key)+"="+self.Tags[key])
	}
	if event, ok := userEvent(e); ok {
		variables = append(variables, "SERF_USER_EVENT="+event.Name, fmt.Sprintf("SERF_USER_LTIME=%d", event.LTime))
	} else if query, ok := e.(*serf.Query); ok {
		variables = append(variables, "SERF_QUERY_NAME="+query.Name, fmt.Sprintf("SERF_QUERY_LTIME=%d", query.LTime))
	}
	if _, isRerun := e.(Rerun); isRerun {
		variables = append(variables, "SERF_USER_RERUN=1")
	}
	for i, variable := range variables {
		// An environment variable can't contain a zero byte.
		variables[i] = strings.ReplaceAll(variable, "\x00", "")
	}
	return variables
}

// sortedKeys returns the names of the tags, sorted.
func sortedKeys(tags map[string]string) []string {
	keys := make([]string, 0, len(tags))
	for key := range tags {
		keys = append(keys, key)
	}
	sort.Strings(keys)
	return keys
}

// variableName returns a tag's name in a form that a shell accepts in a variable.
func variableName(key string) string {
	return strings.Map(func(r rune) rune {
		if r >= 'A' && r <= 'Z' || r >= '0' && r <= '9' {
			return r
		}
		return '_'
	}, strings.ToUpper(key))
}

var fieldEscaper = strings.NewReplacer("\t", `\t`, "\n", `\n`)

// withNewline adds a newline to a payload that isn't empty and doesn't end with one.
func withNewline(payload []byte) []byte {
	if len(payload) > 0 && payload[len(payload)-1] != '\n' {
		return append(append([]byte(nil), payload...), '\n')
	}
	return payload
}

// standardInput returns a script's standard input. For a member event, it has a line for each member. For other events,
// it is the payload, with a newline at its end.
func standardInput(e serf.Event) []byte {
	if event, ok := userEvent(e); ok {
		return withNewline(event.Payload)
	}
	if query, ok := e.(*serf.Query); ok {
		return withNewline(query.Payload)
	}
	var lines strings.Builder
	for _, member := range e.(serf.MemberEvent).Members {
		pairs := make([]string, 0, len(member.Tags))
		for _, key := range sortedKeys(member.Tags) {
			pairs = append(pairs, key+"="+member.Tags[key])
		}
		fields := []string{member.Name, member.Addr.String(), member.Tags["role"], strings.Join(pairs, ",")}
		for i, field := range fields {
			fields[i] = fieldEscaper.Replace(field)
		}
		lines.WriteString(strings.Join(fields, "\t") + "\n")
	}
	return []byte(lines.String())
}
