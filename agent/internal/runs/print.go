package runs

import (
	"bytes"
	"encoding/hex"
	"encoding/json"
	"fmt"
	"io"
	"regexp"
	"strconv"
	"strings"
	"text/tabwriter"
	"unicode"
	"unicode/utf8"

	"kitchenrue.example/serf"
)

// statusText returns the status of a handler in a form for people.
func statusText(status string) string {
	if _, err := strconv.ParseUint(status, 10, 32); err == nil {
		return "exit " + status
	}
	return strings.ReplaceAll(status, "-", " ")
}

// kindText returns the kind in a handler's name, with a space after it, or "" if the handler ran for the event itself.
func kindText(handler string) string {
	if kind, _, ok := strings.Cut(handler, ":"); ok {
		return kind + " "
	}
	return ""
}

// stateText returns what became of an event, in a form for people.
func (o outcome) stateText() string {
	switch {
	case len(o.runs) > 0:
		words := make([]string, 0, len(o.runs))
		for _, run := range o.runs {
			words = append(words, kindText(run.Handler)+statusText(run.Status))
		}
		return strings.Join(words, ", ")
	case o.isAgain:
		kind := "rerun "
		if o.process != nil {
			kind = kindText(o.process.Handler)
		}
		return "cut off, " + kind + string(o.state)
	}
	return string(o.state)
}

// handlerNames returns the names of the known handlers in a form for people.
func (o outcome) handlerNames() string {
	var names []string
	for _, run := range o.runs {
		if run.Handler != "" {
			names = append(names, run.Handler)
		}
	}
	if o.process != nil {
		names = append(names, fmt.Sprintf("%s (process %d)", o.process.Handler, o.process.PID))
	}
	return strings.Join(names, ", ")
}

// isPrintable reports whether a text can be printed as it is, in one line.
func isPrintable(text string) bool {
	return utf8.ValidString(text) && strings.IndexFunc(text, func(r rune) bool { return !unicode.IsPrint(r) }) < 0
}

// quoteIfNeeded returns a text in a form for people. The text is quoted and escaped if it is empty, can't be printed, or
// begins or ends with a space or a quote.
func quoteIfNeeded(text string) string {
	if text == "" || !isPrintable(text) || strings.Trim(text, ` "`) != text {
		return strconv.Quote(text)
	}
	return text
}

// Print prints one line for each event. For a single node, the line has the event's handlers. For several nodes, it has
// a column for each node.
func Print(out io.Writer, nodes []*Node, filter Filter) error {
	var text bytes.Buffer
	table := tabwriter.NewWriter(&text, 0, 0, 2, ' ', 0)
	write := func(words ...string) { fmt.Fprintln(table, strings.Join(words, "\t")) }
	header := []string{"TIME", "NAME", "PAYLOAD"}
	isSingleNode := len(nodes) == 1 && nodes[0].Name == ""
	if isSingleNode {
		header = append(header, "STATE", "HANDLERS")
	} else {
		for _, n := range nodes {
			header = append(header, quoteIfNeeded(n.Name))
		}
	}
	write(header...)
	for _, row := range rowsOf(nodes, filter) {
		words := []string{
			strconv.FormatUint(uint64(row.event.LTime), 10), quoteIfNeeded(row.event.Name), quoteIfNeeded(string(row.event.Payload)),
		}
		for _, outcome := range row.outcomes {
			words = append(words, outcome.stateText())
		}
		if isSingleNode {
			words = append(words, row.outcomes[0].handlerNames())
		}
		write(words...)
	}
	if err := table.Flush(); err != nil {
		return err
	}
	_, err := out.Write(spacesAtEnd.ReplaceAll(text.Bytes(), nil))
	return err
}

// spacesAtEnd matches the spaces at the end of a line, which a table has if the line's last cell is empty.
var spacesAtEnd = regexp.MustCompile(`(?m) +$`)

// jsonEvent is an event at a node, as JSON. docs/AGENT.md describes the keys.
type jsonEvent struct {
	Node       string        `json:"node,omitempty"`
	Time       uint64        `json:"time"`
	Name       *string       `json:"name,omitempty"`
	NameHex    string        `json:"name_hex"`
	Payload    *string       `json:"payload,omitempty"`
	PayloadHex string        `json:"payload_hex"`
	State      string        `json:"state"`
	Handlers   []jsonHandler `json:"handlers,omitempty"`
	Process    *jsonProcess  `json:"process,omitempty"`
	IsAgain    bool          `json:"again,omitempty"`
}

type jsonHandler struct {
	Handler string `json:"handler,omitempty"`
	Status  string `json:"status"`
}

type jsonProcess struct {
	Handler string `json:"handler,omitempty"`
	PID     int    `json:"pid"`
}

// textIfPrintable returns the text, or nil if it can't be printed.
func textIfPrintable(text string) *string {
	if !isPrintable(text) {
		return nil
	}
	return &text
}

// jsonEventOf returns the JSON object for an event at a node.
func jsonEventOf(node string, e serf.EventRun, o outcome) jsonEvent {
	found := jsonEvent{
		Node: node, Time: uint64(e.LTime), Name: textIfPrintable(e.Name), NameHex: hex.EncodeToString([]byte(e.Name)),
		Payload: textIfPrintable(string(e.Payload)), PayloadHex: hex.EncodeToString(e.Payload), State: string(o.state), IsAgain: o.isAgain,
	}
	for _, run := range o.runs {
		found.Handlers = append(found.Handlers, jsonHandler{run.Handler, run.Status})
	}
	if o.process != nil {
		found.Process = &jsonProcess{o.process.Handler, o.process.PID}
	}
	return found
}

// PrintJSON prints one object for each event at each node, each in a separate line.
func PrintJSON(out io.Writer, nodes []*Node, filter Filter) error {
	encoder := json.NewEncoder(out)
	encoder.SetEscapeHTML(false)
	for _, row := range rowsOf(nodes, filter) {
		for i, outcome := range row.outcomes {
			if err := encoder.Encode(jsonEventOf(nodes[i].Name, row.event, outcome)); err != nil {
				return err
			}
		}
	}
	return nil
}
