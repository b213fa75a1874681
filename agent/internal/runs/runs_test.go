package runs

import (
	"bytes"
	"errors"
	"fmt"
	"os"
	"path/filepath"
	"strings"
	"testing"

	"kitchenrue.example/agent/internal/testkit"
	"kitchenrue.example/serf"
)

// readNodes reads snapshots with these texts, by the names of their nodes.
func readNodes(t *testing.T, texts ...[2]string) (nodes []*Node) {
	t.Helper()
	for _, text := range texts {
		node, err := ReadNode(text[0], testkit.Write(t, filepath.Join(t.TempDir(), "snapshot"), text[1]))
		testkit.Must(t, err)
		nodes = append(nodes, node)
	}
	return nodes
}

// checkPrinted compares the printed table with the wanted lines, without the spaces that align the table.
func checkPrinted(t *testing.T, nodes []*Node, filter Filter, want ...string) {
	t.Helper()
	var out bytes.Buffer
	testkit.Must(t, Print(&out, nodes, filter))
	found := strings.Split(strings.TrimSuffix(out.String(), "\n"), "\n")
	for i, line := range found {
		if line != strings.TrimRight(line, " ") {
			t.Errorf("%q ends with a space", line)
		}
		found[i] = strings.Join(strings.FieldsFunc(strings.ReplaceAll(line, "  ", "\x00"), func(r rune) bool { return r == 0 }), "|")
	}
	for i := range found {
		found[i] = strings.ReplaceAll(found[i], "| ", "|")
	}
	if fmt.Sprint(found) != fmt.Sprint(want) {
		t.Errorf("%s\nand not\n%s", strings.Join(found, "\n"), strings.Join(want, "\n"))
	}
}

const began0 = "#done 0\n#ran 0\n"

// ownProcess returns the test's own process, in the form of a line of the snapshot.
func ownProcess(t *testing.T) string {
	t.Helper()
	process, err := serf.ProcessOf("", os.Getpid())
	testkit.Must(t, err)
	return fmt.Sprintf("%d %d %s", process.PID, process.Start, process.Boot)
}

// For a single node, each event has a line: its time, its name, its payload, what became of it, and its handlers.
func TestOneNode(t *testing.T) {
	other := strings.Replace(ownProcess(t), " ", " 9", 1)
	text := began0 + "#event 9 6c617374 78\n#event 1 6f6b \n#begun 1 6f6b \n#done 1 6f6b \n#ran 1 6f6b  deploy=0 notify=3\n" +
		"#event 2 6e6f6e65 0a1b5b\n#done 2 6e6f6e65 0a1b5b\n" +
		"#event 3 637574 2220\n#ran 3 637574 2220 deploy=cut-off rerun:deploy=signal-9\n#done 3 637574 2220\n" +
		"#event 4 63 61\n#ran 4 63 61 =cut-off\n#done 4 63 61\n#event 5 72 62\n#begun 5 72 62\n#process 5 72 62 deploy " + ownProcess(t) +
		"\n" +
		"#event 6 72 62\n#begun 6 72 62\n#process 6 72 62 deploy " + other +
		"\n#event 7 72 62\n#begun 7 72 62\n#begun 7 72 62\n#process 7 72 62 unfinished:deploy 1 2 another-boot\n" +
		"#event 8 72 62\n#begun 8 72 62\n#begun 8 72 62\n"
	nodes := readNodes(t, [2]string{"", text})
	pid := fmt.Sprint(os.Getpid())
	all := []string{
		"TIME|NAME|PAYLOAD|STATE|HANDLERS",
		`1|ok|""|exit 0, exit 3|deploy, notify`,
		`2|none|"\n\x1b["|never began`,
		`3|cut|"\" "|cut off, rerun signal 9|deploy, rerun:deploy`,
		"4|c|a|cut off",
		"5|r|b|running|deploy (process " + pid + ")",
		"6|r|b|cut off|deploy (process " + pid + ")",
		"7|r|b|cut off, unfinished began|unfinished:deploy (process 1)",
		"8|r|b|cut off, rerun began",
		"9|last|x|waiting",
	}
	checkPrinted(t, nodes, Filter{}, all...)
	checkPrinted(t, nodes, Filter{Unfinished: true}, append([]string{all[0]}, all[4:]...)...)
	name, payload, empty := "r", "b", ""
	checkPrinted(t, nodes, Filter{Name: &name, Payload: &payload}, all[0], all[5], all[6], all[7], all[8])
	checkPrinted(t, nodes, Filter{Payload: &empty}, all[0], all[1])
	checkPrinted(t, nodes, Filter{Name: &empty}, all[0])
}

// For several nodes, each node has a column, and each event has one line. If an event isn't in a snapshot that would
// have kept it, the event never arrived at that node.
func TestSeveralNodes(t *testing.T) {
	event := func(time int, payload string) string {
		return fmt.Sprintf("#event %d 6465706c6f79 %x\n#begun %d 6465706c6f79 %x\n", time, payload, time, payload)
	}
	ranLines := func(time int, payload, status string) string {
		return event(time, payload) + fmt.Sprintf(
			"#done %d 6465706c6f79 %x\n#ran %d 6465706c6f79 %x deploy=%s\n", time, payload, time, payload, status,
		)
	}
	nodes := readNodes(t,
		[2]string{"web1", began0 + ranLines(1, "v1", "0") + ranLines(2, "v2", "0") + ranLines(3, "v3", "0") + ranLines(3, "w3", "0")},
		[2]string{"web2", began0 + ranLines(2, "v2", "cut-off") + ranLines(2, "w2", "0") + ranLines(3, "w3", "0") + ranLines(3, "v3", "7")},
		[2]string{"web3", began0 + "#least event-clock: 2\n" + "#event 3 6465706c6f79 7633\n#event 4 6465706c6f79 7634\n"},
		[2]string{"web4", "event-clock: 1\n"}, [2]string{"an\nodd", "#event 2 6465706c6f79 7632\n"},
	)
	head := `TIME|NAME|PAYLOAD|web1|web2|web3|web4|"an\nodd"`
	lines := []string{
		"1|deploy|v1|exit 0|never arrived|not kept|not kept|never arrived",
		"2|deploy|v2|exit 0|cut off|never arrived|never arrived|unknown",
		"2|deploy|w2|never arrived|exit 0|never arrived|never arrived|never arrived",
		"3|deploy|v3|exit 0|exit 7|waiting|never arrived|never arrived",
		"3|deploy|w3|exit 0|exit 0|never arrived|never arrived|never arrived",
		"4|deploy|v4|never arrived|never arrived|waiting|never arrived|never arrived",
	}
	checkPrinted(t, nodes, Filter{}, append([]string{head}, lines...)...)
	payload := "v2"
	checkPrinted(t, nodes, Filter{Payload: &payload}, head, lines[1])
	checkPrinted(
		t, nodes[:2], Filter{Unfinished: true}, "TIME|NAME|PAYLOAD|web1|web2", "1|deploy|v1|exit 0|never arrived",
		"2|deploy|v2|exit 0|cut off", "2|deploy|w2|never arrived|exit 0",
	)
	checkPrinted(t, nodes[:1], Filter{Unfinished: true}, "TIME|NAME|PAYLOAD|web1")
}

// As JSON, each event at each node is an object.
func TestJSON(t *testing.T) {
	nodes := readNodes(t,
		[2]string{
			"web1",
			began0 + "#event 1 3c62 ff\n#ran 1 3c62 ff deploy=0 =cut-off\n#done 1 3c62 ff\n#event 2 62 \n#begun 2 62 \n#begun 2 62 \n#process 2 62  x 7 8 b\n",
		},
		[2]string{"web2", began0 + "#event 1 3c62 ff\n"},
	)
	var out bytes.Buffer
	testkit.Must(t, PrintJSON(&out, nodes, Filter{}))
	want := `{"node":"web1","time":1,"name":"<b","name_hex":"3c62","payload_hex":"ff","state":"done","handlers":[{"handler":"deploy","status":"0"},{"status":"cut-off"}]}
{"node":"web2","time":1,"name":"<b","name_hex":"3c62","payload_hex":"ff","state":"waiting"}
{"node":"web1","time":2,"name":"b","name_hex":"62","payload":"","payload_hex":"","state":"began","process":{"handler":"x","pid":7},"again":true}
{"node":"web2","time":2,"name":"b","name_hex":"62","payload":"","payload_hex":"","state":"never arrived"}
`
	if out.String() != want {
		t.Error(out.String())
	}
	nodes[0].Name = ""
	out.Reset()
	testkit.Must(t, PrintJSON(&out, nodes[:1], Filter{Unfinished: true}))
	if lines := strings.Count(out.String(), "\n"); lines != 2 || strings.Contains(out.String(), "node") {
		t.Error(out.String())
	}
}

// If a snapshot can't be read, the error has its path. A folder or a device is not read.
func TestUnreadableSnapshots(t *testing.T) {
	folder := t.TempDir()
	for _, path := range []string{folder, filepath.Join(folder, "none"), "/dev/zero"} {
		if _, err := ReadNode("", path); err == nil || !strings.Contains(err.Error(), path) {
			t.Error(path, err)
		}
	}
	for argument, want := range map[string][2]string{"a=b": {"a", "b"}, "a=b=c": {"a", "b=c"}, "b": {"", "b"}, "/x/y": {"", "/x/y"}} {
		if name, path, err := SplitNode(argument); err != nil || [2]string{name, path} != want {
			t.Error(argument, name, path, err)
		}
	}
	for _, argument := range []string{"=b", "a=", "="} {
		if _, _, err := SplitNode(argument); err == nil {
			t.Error(argument)
		}
	}
	for _, names := range [][]string{{"", "a"}, {"a", "a"}, {"", ""}} {
		if err := CheckNames(names); !errors.Is(err, ErrMixed) {
			t.Error(names, err)
		}
	}
	for _, names := range [][]string{{""}, {"a"}, {"a", "b"}} {
		testkit.Check(t, CheckNames(names))
	}
}
