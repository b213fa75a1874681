package guard

import (
	"bufio"
	"encoding/json"
	"fmt"
	"io"
	"net"
	"os"
	"os/exec"
	"strings"
	"sync/atomic"
	"testing"
	"time"

	"github.com/hashicorp/memberlist"
)

// childVariable is the environment variable with a child's options. A child process runs memberlist with the guard, and
// answers lines on its input.
const childVariable = "GUARD_CHILD"

var testKey = []byte("sixteen bytes is")

// childOptions are the options of a child. A test passes them to it as JSON.
type childOptions struct {
	Name    string
	IsKeyed bool
	// IsAlone makes the child run without the guard. If GUARD_ALONE is set, all children run without it, so that you
	// can see by hand what memberlist does.
	IsAlone bool
	// IsHonest shortens memberlist's intervals and enlarges its states. IsCompressed compresses gossip.
	IsHonest, IsCompressed bool
	Members                int
	// IsProving makes new nodes prove their addresses; IsHonest implies that. Otherwise, the guard admits them without
	// a ping, since nobody answers for the nodes that most tests invent.
	IsProving bool
	// Advertise is the address that the child reports to others. It is empty if the child reports its real one.
	Advertise string
}

// delegate broadcasts messages, counts those it receives, and has a local state of length bytes.
type delegate struct {
	queue    *memberlist.TransmitLimitedQueue
	length   int
	received atomic.Int64
}

// broadcast is a message to broadcast.
type broadcast []byte

func (t broadcast) Invalidates(memberlist.Broadcast) bool { return false }
func (t broadcast) Message() []byte                       { return t }
func (t broadcast) Finished()                             {}

func (t *delegate) NodeMeta(int) []byte             { return []byte("meta") }
func (t *delegate) NotifyMsg([]byte)                { t.received.Add(1) }
func (t *delegate) LocalState(bool) []byte          { return make([]byte, t.length) }
func (t *delegate) MergeRemoteState([]byte, bool)   {}
func (t *delegate) AckPayload() []byte              { return make([]byte, 150) }
func (t *delegate) GetBroadcasts(o, l int) [][]byte { return t.queue.GetBroadcasts(o, l) }

// NotifyPingComplete implements memberlist.PingDelegate.
func (t *delegate) NotifyPingComplete(*memberlist.Node, time.Duration, []byte) {}

func newDelegate(length int) *delegate {
	return &delegate{length: length, queue: &memberlist.TransmitLimitedQueue{RetransmitMult: 3, NumNodes: func() int { return 3 }}}
}

// sendAll queues broadcasts, and sends messages to each member.
func (t *delegate) sendAll(list *memberlist.Memberlist) string {
	for n := 0; n < 50; n++ {
		t.queue.QueueBroadcast(broadcast(fmt.Sprintf("message %d of %s", n, list.LocalNode().Name)))
	}
	for _, other := range list.Members() {
		if err := list.SendReliable(other, make([]byte, 60_000)); err != nil {
			return err.Error()
		}
		if err := list.SendBestEffort(other, make([]byte, 9_000)); err != nil {
			return err.Error()
		}
	}
	return ""
}

// testConfig returns memberlist's configuration for a node on loopback. On a busy machine, streams may take long.
func testConfig(name string, isKeyed bool) *memberlist.Config {
	c := memberlist.DefaultLANConfig()
	c.Name, c.BindAddr, c.BindPort, c.LogOutput, c.Delegate = name, "127.0.0.1", 0, io.Discard, newDelegate(100)
	c.DelegateProtocolMin, c.DelegateProtocolMax, c.DelegateProtocolVersion, c.TCPTimeout = 2, 5, 4, time.Minute
	if isKeyed {
		c.SecretKey = testKey
	}
	return c
}

func TestMain(m *testing.M) {
	if encoded := os.Getenv(childVariable); encoded != "" {
		runChild(encoded)
		return
	}
	os.Exit(m.Run())
}

// localTransport is a transport that sends only to this host, whatever address a packet claims.
type localTransport struct{ *Transport }

func isLocal(address string) bool { return strings.HasPrefix(address, "127.") }

func (l localTransport) WriteToAddress(b []byte, to memberlist.Address) (time.Time, error) {
	if !isLocal(to.Addr) {
		return time.Now(), nil
	}
	return l.Transport.WriteToAddress(b, to)
}

func (l localTransport) DialAddressTimeout(to memberlist.Address, timeout time.Duration) (net.Conn, error) {
	if !isLocal(to.Addr) {
		return nil, fmt.Errorf("%s is not on this host", to.Addr)
	}
	return l.Transport.DialAddressTimeout(to, timeout)
}

// runChild answers lines until its input ends.
func runChild(encoded string) {
	var options childOptions
	if err := json.Unmarshal([]byte(encoded), &options); err != nil {
		panic(err)
	}
	c, delegate, transport := testConfig(options.Name, options.IsKeyed), newDelegate(100), (*Transport)(nil)
	if options.IsHonest {
		delegate.length, c.Ping, c.EnableCompression, c.SuspicionMult = 300_000, delegate, options.IsCompressed, 100
		c.ProbeInterval, c.ProbeTimeout = 300*time.Millisecond, 150*time.Millisecond
		c.PushPullInterval, c.GossipInterval = 500*time.Millisecond, 20*time.Millisecond
	}
	if options.IsProving {
		c.CIDRsAllowed, _ = memberlist.ParseCIDRs([]string{"127.0.0.0/8"}) // (the guard pings no other addresses)
	}
	if options.Advertise != "" {
		c.AdvertiseAddr = options.Advertise
	}
	if options.Members > 0 {
		// Nobody answers probes, so none may fail while the test lasts.
		c.ProbeInterval = time.Hour
	}
	c.Delegate = delegate
	if !options.IsAlone {
		var err error
		settings := Settings{Members: options.Members}
		if !options.IsHonest && !options.IsProving {
			settings.AdmitUnproven, settings.NamesPerAddress = true, manyNames
		}
		probeTimeout := c.ProbeTimeout
		if options.IsHonest && !options.IsProving {
			// (on a busy machine, the guard would ping a new node several times, and count all answers but the first)
			c.ProbeTimeout = 10 * time.Second
		}
		if transport, err = New(c, settings); err != nil {
			panic(err)
		}
		c.Transport, c.ProbeTimeout = localTransport{transport}, probeTimeout
	}
	list, err := memberlist.Create(c)
	if err != nil {
		panic(err)
	}
	fmt.Println(list.LocalNode().Port)
	for lines := bufio.NewScanner(os.Stdin); lines.Scan(); {
		out, _ := json.Marshal(runCommand(list, delegate, transport, strings.Fields(lines.Text())))
		fmt.Println(string(out))
	}
}

// runCommand runs the command of a line in the child, and returns the answer.
func runCommand(list *memberlist.Memberlist, d *delegate, transport *Transport, words []string) any {
	switch words[0] {
	case "drops":
		named := map[string]uint64{}
		if transport != nil {
			for reason, count := range transport.Drops() {
				named[reason.String()] = count
			}
		}
		return named
	case "members":
		return list.NumMembers()
	case "names":
		var names []string
		for _, member := range list.Members() {
			names = append(names, member.Name)
		}
		return names
	case "join":
		if _, err := list.Join(words[1:]); err != nil {
			return err.Error()
		}
	case "say":
		return d.sendAll(list)
	case "heard":
		return d.received.Load()
	case "leave":
		if err := list.Leave(time.Minute); err != nil {
			return err.Error()
		}
	}
	return ""
}

// child is a child process, and a socket through which the test sends to it.
type child struct {
	*testing.T
	childOptions
	process *exec.Cmd
	in      io.WriteCloser
	out     *bufio.Scanner
	address string
	udp     net.Conn
	number  uint32
}

// startChild starts a child process, and connects a socket to it.
func startChild(t *testing.T, options childOptions) *child {
	t.Helper()
	if options.Name == "" {
		options.Name, options.IsAlone = "child", options.IsAlone || os.Getenv("GUARD_ALONE") != ""
	}
	encoded, _ := json.Marshal(options)
	c := &child{T: t, childOptions: options, process: exec.Command(os.Args[0])}
	c.process.Env = append(os.Environ(), childVariable+"="+string(encoded), "GOMEMLIMIT=64MiB", "GORACE=exitcode=0")
	var errors strings.Builder
	c.process.Stderr = &errors
	c.in, _ = c.process.StdinPipe()
	out, _ := c.process.StdoutPipe()
	c.out = bufio.NewScanner(out)
	if err := c.process.Start(); err != nil {
		t.Fatal(err)
	}
	t.Cleanup(func() {
		c.in.Close()
		if err := c.process.Wait(); err != nil || hasRace(errors.String()) {
			t.Errorf("the child: %v %.4000s", err, errors.String())
		}
	})
	if !c.out.Scan() {
		t.Fatal("the child did not start")
	}
	c.address = "127.0.0.1:" + c.out.Text()
	var err error
	if c.udp, err = net.Dial("udp", c.address); err != nil {
		t.Fatal(err)
	}
	t.Cleanup(func() { c.udp.Close() })
	return c
}

// hasRace reports whether the race detector found a race in the guard. memberlist itself has other races, for example
// in a node's address.
func hasRace(output string) bool {
	isAccess := false
	for _, line := range strings.Split(output, "\n") {
		switch {
		case strings.Contains(line, " at 0x"):
			isAccess = true
		case isAccess && (strings.Contains(line, "github.com/") || line == ""):
			isAccess = false
		case isAccess && strings.Contains(line, "kitchenrue.example/"):
			return true
		}
	}
	return false
}

// ask sends a line to the child, and decodes its answer.
func (c *child) ask(line string, answer any) {
	c.Helper()
	fmt.Fprintln(c.in, line)
	if !c.out.Scan() {
		c.Fatalf("the child ended at %q", line)
	}
	if err := json.Unmarshal(c.out.Bytes(), answer); err != nil {
		c.Fatal(err)
	}
}

func (c *child) drops() (drops map[string]uint64) {
	c.Helper()
	c.ask("drops", &drops)
	return drops
}

// seal encrypts a packet if there is a key.
func (c *child) seal(packet []byte) []byte {
	if c.IsKeyed {
		return sealWith(testKey, packet)
	}
	return packet
}

func (c *child) sealStream(message []byte) []byte {
	if c.IsKeyed {
		return sealStreamWith(testKey, message)
	}
	return message
}

// isAlive pings the child until an ack arrives. By then, the child has inspected all packets that were sent before.
func (c *child) isAlive() bool {
	buf := make([]byte, 65536)
	for try := 0; try < 120; try++ {
		c.number++
		c.udp.Write(c.seal(message(msgPing, map[string]any{"SeqNo": c.number, "Node": c.Name})))
		c.udp.SetReadDeadline(time.Now().Add(500 * time.Millisecond))
		for {
			n, err := c.udp.Read(buf)
			if err != nil {
				break
			}
			plain := buf[:n]
			if c.IsKeyed {
				plain = openWith(testKey, plain)
			}
			if number, isAck := ackNumber(plain); isAck && number == c.number {
				return true
			}
		}
	}
	return false
}

// call sends a stream, and returns the bytes with which the child answers until it closes the stream.
func (c *child) call(bytes []byte, isClosed bool) []byte {
	conn, err := net.Dial("tcp", c.address)
	if err != nil {
		c.Fatal(err)
	}
	defer conn.Close()
	conn.SetDeadline(time.Now().Add(time.Minute))
	conn.Write(bytes)
	if isClosed {
		conn.(*net.TCPConn).CloseWrite()
	}
	answer, _ := io.ReadAll(conn)
	return answer
}

// mustJoin sends an honest node's push/pull, and expects an answer.
func (c *child) mustJoin() {
	c.Helper()
	answer := c.call(c.sealStream(pushPull([]map[string]any{node("honest", nil)}, 10)), false)
	if c.IsKeyed && len(answer) > streamHeader {
		answer = openStreamWith(testKey, answer)
	}
	if len(answer) == 0 || answer[0] != msgCompress && answer[0] != msgPushPull {
		c.Errorf("no answer to a push/pull: %.40x", answer)
	}
}

// peakKiB returns the maximum memory that the child has used so far, in KiB.
func (c *child) peakKiB() (kib int) {
	status, _ := os.ReadFile(fmt.Sprintf("/proc/%d/status", c.process.Process.Pid))
	for _, line := range strings.Split(string(status), "\n") {
		fmt.Sscanf(line, "VmHWM: %d kB", &kib)
	}
	return kib
}
