// driver NET FIRST FOLDER PROGRAM [WORD..] starts several agents of a program, on addresses of the network NET that
// follow the address FIRST. It calls each method of Serf's own RPC client on them, and prints each result on a line, as
// "name: value". tests/library/rpc_client.py runs the driver with two programs and compares the two outputs. So the
// driver doesn't print what differs between two runs of the same program: numbers and times of queries, texts of the
// log, and the order in which answers arrive.
package main

import (
	"fmt"
	"log"
	"os"
	"regexp"
	"runtime"
	"sort"
	"strconv"
	"strings"
	"time"

	"github.com/hashicorp/serf/client"
)

// binaryPayload is a payload that is not valid UTF-8.
var binaryPayload = []byte{0xff, 0xfe, 0x00}

// nobody is the number of an address at which no agent is running.
const nobody = 20

// filters are the filters of the streams that the first agent has from its start on.
var filters = []string{"member-join", "member-update", "member-leave", "member-failed", "member-reap", "user", "user:deploy", "query", "*"}

// run is a run of the driver: its arguments, its agents, and the streams of two of them.
type run struct {
	network, folder string
	firstAddress    int
	program         []string
	agents          []*agent
	a, b            *agent
	streams         map[string]*stream
}

func main() {
	if len(os.Args) < 5 {
		log.Fatal("driver NET FIRST FOLDER PROGRAM [WORD..]")
	}
	first, err := strconv.Atoi(os.Args[2])
	if err != nil {
		log.Fatal(err)
	}
	// (an agent ends with the thread that started it)
	runtime.LockOSThread()
	r := &run{network: os.Args[1], firstAddress: first, folder: os.Args[3], program: os.Args[4:], streams: map[string]*stream{}}
	defer r.killAll()
	for _, part := range []func(*run){
		(*run).tryJoin, (*run).tryMemberFilters, (*run).tryBadExpressions, (*run).tryStreamFilters, (*run).tryEvents,
		(*run).tryQueries, (*run).tryResponses, (*run).tryTags, (*run).tryMonitors, (*run).tryKeysWithoutEncryption,
		(*run).tryLeave, (*run).tryForceLeave, (*run).tryStop, (*run).tryStats, (*run).tryKeys, (*run).tryTokens,
		(*run).tryClose,
	} {
		part(r)
	}
}

// printFact prints a result on a line. It replaces the addresses of this run by names that are the same in each run.
func (r *run) printFact(name string, value interface{}) {
	own := regexp.MustCompile(regexp.QuoteMeta(r.network) + `\.(\d+)`)
	text := own.ReplaceAllStringFunc(fmt.Sprint(value), func(address string) string {
		number, _ := strconv.Atoi(address[len(r.network)+1:])
		return fmt.Sprintf("NET.%d", number-r.firstAddress)
	})
	fmt.Printf("%s: %s\n", name, strings.ReplaceAll(text, "\n", `\n`))
}

// tryJoin starts two agents and makes them join each other.
func (r *run) tryJoin() {
	r.a = r.startAgent("a", 1, "-tag=role=web")
	r.b = r.startAgent("b", 2, "-tag=role=db", "-tag=dc=south")
	for _, filter := range filters {
		r.streams[filter] = r.follow(r.a, filter)
	}
	r.streams["user at b"] = r.follow(r.b, "user")
	count, err := r.a.Join([]string{r.addr(nobody)}, false)
	r.printFact("join of nobody, count", count)
	r.printFact("join of nobody, error", err)
	count, err = r.a.Join([]string{r.b.addr, r.addr(nobody)}, true)
	r.printFact("join of one of two, count", count)
	r.printFact("join of one of two, error", err)
	count, err = r.b.Join([]string{"a/" + r.a.addr}, false)
	r.printFact("join by name, count", count)
	r.printFact("join by name, error", err)
	for _, one := range []*agent{r.a, r.b} {
		r.printFact(one.name+" sees both", one.waitForStatus("a", "alive") && one.waitForStatus("b", "alive"))
		r.printMembers(one.name+", members", one)
	}
	r.printMember("member-join", "b")
}

// printMembers prints each member that an agent knows.
func (r *run) printMembers(name string, asked *agent) {
	all, err := asked.Members()
	r.printFact(name+", error", err)
	sort.Slice(all, func(i, j int) bool { return all[i].Name < all[j].Name })
	for _, m := range all {
		r.printFact(name+", "+m.Name+", Addr", typedText(m.Addr))
		r.printFact(name+", "+m.Name+", Port", typedText(m.Port))
		r.printFact(name+", "+m.Name+", Tags", typedText(m.Tags))
		r.printFact(name+", "+m.Name+", Status", typedText(m.Status))
		r.printFact(name+", "+m.Name+", Protocol", []uint8{m.ProtocolMin, m.ProtocolMax, m.ProtocolCur})
		r.printFact(name+", "+m.Name+", Delegate", []uint8{m.DelegateMin, m.DelegateMax, m.DelegateCur})
	}
}

// tryMemberFilters requests members by tags, status and name.
func (r *run) tryMemberFilters() {
	for _, by := range []struct {
		what         string
		tags         map[string]string
		status, name string
	}{
		{"nothing", nil, "", ""}, {"a tag", map[string]string{"role": "web"}, "", ""},
		{"a tag's expression", map[string]string{"role": "w.*|db"}, "", ""},
		{"a part of a tag", map[string]string{"role": "w"}, "", ""}, {"two tags", map[string]string{"role": "db", "dc": "so.*"}, "", ""},
		{"no such tag", map[string]string{"rack": "7"}, "", ""}, {"status", nil, "alive", ""}, {"another status", nil, "failed|left", ""},
		{"a name", nil, "", "b"}, {"names", nil, "", "[ab]"}, {"no such name", nil, "", "c"},
		{"all three", map[string]string{"role": ".*"}, "alive", "a"},
	} {
		all, err := r.a.MembersFiltered(by.tags, by.status, by.name)
		r.printFact("members by "+by.what, sortedNames(all))
		r.printFact("members by "+by.what+", error", err)
	}
}

// tryBadExpressions requests members with invalid expressions. It uses a separate client for each request, because the
// request may end the client.
func (r *run) tryBadExpressions() {
	for _, by := range []struct {
		what         string
		tags         map[string]string
		status, name string
	}{{"tag", map[string]string{"role": "("}, "", ""}, {"status", nil, "(", ""}, {"name", nil, "", "("}} {
		one := r.dial(r.a)
		_, err := one.MembersFiltered(by.tags, by.status, by.name)
		r.printFact("members by a bad expression of a "+by.what+", error", err)
		one.Close()
	}
}

// tryStreamFilters tries a stream with an invalid filter, one with filters of two kinds, and one with an empty filter.
func (r *run) tryStreamFilters() {
	one := r.dial(r.a)
	_, err := one.Stream("nonsense", make(chan map[string]interface{}, 1))
	r.printFact("stream of nonsense, error", err)
	_, err = one.Stream("user:deploy,query", make(chan map[string]interface{}, 1))
	r.printFact("stream of two kinds, error", err)
	_, err = one.Stream("", make(chan map[string]interface{}, 1))
	r.printFact("stream of nothing, error", err)
}

// tryEvents fires events.
func (r *run) tryEvents() {
	r.printFact("event, error", r.a.UserEvent("deploy", binaryPayload, false))
	r.printRecord("user", "deploy", binaryPayload)
	r.printRecord("user:deploy", "deploy", binaryPayload)
	r.printRecord("*", "deploy", binaryPayload)
	// (then b knows the time of this event before it fires the next one)
	r.printRecord("user at b", "deploy", binaryPayload)
	r.printFact("event of another, error", r.b.UserEvent("other", []byte("of b"), false))
	r.printRecord("user", "other", []byte("of b"))
	r.printFact("event that may be coalesced, error", r.a.UserEvent("deploy", []byte("late"), true))
	r.printRecord("user:deploy", "deploy", []byte("late"))
	r.printFact("event of zeros, error", r.a.UserEvent("zeros", make([]byte, 300), false))
	r.printRecord("user", "zeros", make([]byte, 300))
	r.printFact("event without a payload, error", r.a.UserEvent("none", nil, false))
	r.printRecord("user", "none", nil)
	r.printRecord("user at b", "none", nil)
	r.printFact("event that is too long, error", r.a.UserEvent("deploy", make([]byte, 600), false))
}

// tryQueries fires queries that both nodes answer, each through a stream.
func (r *run) tryQueries() {
	for _, one := range []*agent{r.a, r.b} {
		r.answerQueries(one)
	}
	both := []string{"a", "b"}
	tryQuery := func(what string, acks, responses []string, params client.QueryParam) {
		params.Name = "who"
		r.printQuery(what, acks, responses, params)
	}
	tryQuery("query", both, both, client.QueryParam{RequestAck: true, Payload: binaryPayload})
	tryQuery("query without acks", nil, both, client.QueryParam{})
	tryQuery("query by a node", []string{"b"}, []string{"b"}, client.QueryParam{RequestAck: true, FilterNodes: []string{"b"}})
	tryQuery("query by itself", []string{"a"}, []string{"a"}, client.QueryParam{RequestAck: true, FilterNodes: []string{"a", "none"}})
	tryQuery(
		"query by a tag", []string{"b"}, []string{"b"}, client.QueryParam{RequestAck: true, FilterTags: map[string]string{"role": "d"}},
	)
	web := map[string]string{"role": "^web$"}
	tryQuery(
		"query by a node and a tag", []string{"a"}, []string{"a"}, client.QueryParam{RequestAck: true, FilterNodes: both, FilterTags: web},
	)
	tryQuery("query by no node", nil, nil, client.QueryParam{RequestAck: true, FilterNodes: []string{"none"}})
	tryQuery("query with relays", both, both, client.QueryParam{RequestAck: true, RelayFactor: 1})
	r.printFact("query without channels, error", r.a.Query(&client.QueryParam{Name: "quiet", Timeout: time.Second}))
	r.printRecord("query", "quiet", nil)
	r.printRecord("*", "who", binaryPayload)
	r.printFact("query that is too long, error", r.a.Query(&client.QueryParam{Name: "who", Payload: make([]byte, 1100)}))
}

// tryResponses tries to answer a query that doesn't exist, to answer with too many bytes, and to answer a query twice.
func (r *run) tryResponses() {
	one := r.dial(r.b)
	r.printFact("answer to no query, error", one.Respond(4711, binaryPayload))
	id := r.openQueryAt(one)
	r.printFact("answer that is too long, error", one.Respond(id, make([]byte, 1100)))
	id = r.openQueryAt(one)
	r.printFact("answer, error", one.Respond(id, binaryPayload))
	r.printFact("second answer, error", one.Respond(id, binaryPayload))
}

// openQueryAt fires a query that a client of b receives and has not answered yet. It returns the query's number.
func (r *run) openQueryAt(one *client.RPCClient) uint64 {
	s := r.followBy(one, "query")
	var found record
	// (a stream may begin a moment after its answer, so the query is repeated until it arrives)
	waitUntil(func() bool {
		if err := r.b.Query(&client.QueryParam{Name: "held", FilterNodes: []string{"b"}, Timeout: 10 * limit}); err != nil {
			r.fail(err)
		}
		found = s.firstRecord(func(one record) bool { return one["Name"] == "held" })
		return found != nil
	})
	return wholeNumber(found["ID"])
}

// tryTags changes tags.
func (r *run) tryTags() {
	r.printFact("tags that are set, error", r.b.UpdateTags(map[string]string{"size": "big", "role": "cache"}, nil))
	r.printFact("tags that are set are seen", waitUntil(func() bool { return r.a.tags("b")["size"] == "big" }))
	r.printMember("member-update", "b")
	r.printFact("tags, one is deleted, error", r.b.UpdateTags(map[string]string{"rack": "7"}, []string{"size", "none"}))
	r.printFact("tags, one is deleted, is seen", waitUntil(func() bool { return r.a.tags("b")["rack"] == "7" }))
	r.printFact("tags, finally", typedText(r.a.tags("b")))
	r.printFact("tags that are too long, error", r.b.UpdateTags(map[string]string{"long": strings.Repeat("x", 600)}, nil))
	r.printFact("tags after those that are too long", typedText(r.b.tags("b")))
}

// tryMonitors follows the log at two levels. (If a record arrives while a stream is being stopped, Serf's client ends
// its process. So only a stream that receives nothing is stopped.)
func (r *run) tryMonitors() {
	debugClient, errorClient := r.dial(r.a), r.dial(r.a)
	lines, errors := make(chan string, 4096), make(chan string, 4096)
	_, err := debugClient.Monitor("debug", lines)
	r.printFact("monitor, error", err)
	handle, err := errorClient.Monitor("ERR", errors)
	r.printFact("monitor of errors, error", err)
	_, err = errorClient.Monitor("ERR", make(chan string, 4096))
	r.printFact("second monitor of a client, error", err)
	r.printFact("event that is watched, error", r.a.UserEvent("watched", nil, false))
	r.printFact("monitor has a line of the event", hasLineWith(lines, "watched"))
	r.printFact("stop of a monitor, error", errorClient.Stop(handle))
	r.printFact("monitor of errors has others", hasLineWith(errors, "[DEBUG]", "[INFO]", "[WARN]"))
	r.printFact("monitor is over", linesEnd(errors))
	one := r.dial(r.a)
	defer one.Close()
	_, err = one.Monitor("loud", make(chan string, 1))
	r.printFact("monitor at no level, error", err)
}

// tryLeave makes a node leave.
func (r *run) tryLeave() {
	d := r.startAgent("d", 4)
	_, err := d.Join([]string{r.a.addr}, false)
	r.printFact("join before a leave, error", err)
	r.printFact("join before a leave is seen", r.a.waitForStatus("d", "alive"))
	r.printMember("member-join", "d")
	r.printFact("leave, error", d.Leave())
	r.printFact("leave, status of the process", d.status())
	r.printFact("leave, client is closed", waitUntil(d.IsClosed))
	r.printFact("leave is seen", r.a.waitForStatus("d", "left"))
	r.printMember("member-leave", "d")
	r.printFact("force-leave with prune of who left, error", r.a.ForceLeavePrune("d"))
	r.printFact("force-leave with prune of who left is seen", r.a.waitForStatus("d", ""))
	r.printMember("member-reap", "d")
}

// tryForceLeave kills two nodes and removes them by force-leave. The others forget the first one at once, and keep the
// second one as left.
func (r *run) tryForceLeave() {
	r.startAndKill("e", 5)
	r.printFact("force-leave with prune, error", r.a.ForceLeavePrune("e"))
	r.printFact("force-leave with prune is seen", r.a.waitForStatus("e", ""))
	r.printMember("member-reap", "e")
	r.startAndKill("c", 6)
	r.printFact("force-leave, error", r.a.ForceLeave("c"))
	r.printFact("force-leave is seen", r.a.waitForStatus("c", "left"))
	r.printMember("member-leave", "c")
	r.printFact("force-leave of nobody, error", r.a.ForceLeave("nobody"))
	r.printFact("b is seen, finally", r.a.waitForStatus("b", "alive"))
	r.printMembers("a, members, finally", r.a)
}

// startAndKill starts a node that joins, and then kills it.
func (r *run) startAndKill(name string, number int) {
	one := r.startAgent(name, number)
	_, err := one.Join([]string{r.a.addr}, false)
	r.printFact(name+" joins, error", err)
	r.printFact(name+" is seen", r.a.waitForStatus(name, "alive"))
	r.printMember("member-join", name)
	one.kill()
	r.printFact(name+" is seen failed", r.a.waitForStatus(name, "failed"))
	r.printMember("member-failed", name)
}

// tryStop prints the kinds of events in each stream, and stops one stream.
func (r *run) tryStop() {
	for _, filter := range filters {
		r.printFact("kinds in a stream of "+filter, r.streams[filter].kinds())
	}
	for _, name := range []string{"c", "d", "e"} {
		r.printFact("events of "+name+", in order", withoutRepeats(r.streams["*"].kindsOf(name)))
	}
	// (its tags were changed twice)
	r.printFact("member-update is repeated, after the events of others", len(r.streams["member-update"].kindsOf("b")) > 2)
	s := r.streams["user"]
	r.printFact("stop of a stream, error", r.a.Stop(s.handle))
	r.printFact("stream is over", waitUntil(s.isOver))
	r.printFact("event after a stop, error", r.a.UserEvent("behind", nil, false))
	r.printRecord("*", "behind", nil)
	r.printFact("stopped stream has it", s.hasEventNamed("behind"))
	r.printFact("stop of no stream, error", r.a.Stop(4711))
}

// tryStats requests statistics and coordinates.
func (r *run) tryStats() {
	stats, err := r.a.Stats()
	r.printFact("stats, error", err)
	figures := record{}
	for section, values := range stats {
		for name, value := range values {
			if section == "runtime" || name == "health_score" || strings.HasSuffix(name, "_time") || strings.HasSuffix(name, "_queue") {
				value = "a text"
			}
			figures[section+" "+name] = value
		}
	}
	for _, name := range sortedFields(figures) {
		r.printFact("stats, "+name, figures[name])
	}
	for _, name := range []string{"a", "b", "nobody"} {
		found, err := r.a.GetCoordinate(name)
		r.printFact("coordinate of "+name+", error", err)
		r.printFact("coordinate of "+name+" is there", found != nil)
	}
}

// tryClose closes a client.
func (r *run) tryClose() {
	one := r.dial(r.a)
	r.printFact("client is closed before", one.IsClosed())
	s := r.followBy(one, "user")
	r.printFact("close, error", one.Close())
	r.printFact("client is closed after it", one.IsClosed())
	r.printFact("its stream is over", waitUntil(s.isOver))
	_, err := one.Members()
	r.printFact("call of a closed client, error", err)
	r.printFact("second close, error", one.Close())
}
