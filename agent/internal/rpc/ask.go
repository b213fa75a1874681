package rpc

import (
	"errors"
	"fmt"
	"io"
	"net"
	"sort"
	"strconv"
	"strings"
	"text/tabwriter"
	"time"
)

// askTimeout is the maximum time for connecting, and also for all requests together. maxAnswer is the maximum size of
// an answer in bytes.
const (
	askTimeout = 10 * time.Second
	maxAnswer  = 64 << 20
)

// AskMembers requests the members from the agent at an address, and writes one line for each of them to out, as Serf's
// command line does. It sends token if it isn't empty.
func AskMembers(address, token string, out io.Writer) error {
	conn, err := net.DialTimeout("tcp", address, askTimeout)
	if err != nil {
		return err
	}
	defer conn.Close()
	if err := conn.SetDeadline(time.Now().Add(askTimeout)); err != nil {
		return err
	}
	rpc := &rpcClient{conn: conn, reader: newReader(conn)}
	if err := rpc.call("handshake", handshakeBody{1}); err != nil {
		return err
	}
	if token != "" {
		if err := rpc.call("auth", authBody{token}); err != nil {
			return err
		}
	}
	if err := rpc.call("members"); err != nil {
		return err
	}
	var answer membersAnswer
	if err := rpc.reader.decode(maxAnswer, &answer); err != nil {
		return fmt.Errorf("the agent's answer can't be read: %w", err)
	}
	return writeMembers(answer.Members, out)
}

// rpcClient is a client that sends one request at a time and reads its answer.
type rpcClient struct {
	conn   net.Conn
	reader *reader
	seq    uint64
}

// call sends a request and reads the header of its answer. If the header has an error, call returns it.
func (c *rpcClient) call(command string, body ...interface{}) error {
	c.seq++
	request, err := encode(append([]interface{}{requestHeader{command, c.seq}}, body...)...)
	if err != nil {
		return err
	}
	if _, err := c.conn.Write(request); err != nil {
		return err
	}
	var header answerHeader
	if err := c.reader.decode(maxHeader, &header); err != nil {
		return fmt.Errorf("the agent's answer to %s can't be read: %w", command, err)
	}
	if header.Error != "" {
		return errors.New(header.Error)
	}
	return nil
}

// writeMembers writes the members in the order of their names.
func writeMembers(members []member, out io.Writer) error {
	sort.Slice(members, func(i, j int) bool { return members[i].Name < members[j].Name })
	table := tabwriter.NewWriter(out, 0, 0, 2, ' ', 0)
	for _, m := range members {
		tags := make([]string, 0, len(m.Tags))
		for key, value := range m.Tags {
			tags = append(tags, key+"="+value)
		}
		sort.Strings(tags)
		fields := []string{m.Name, net.JoinHostPort(m.Addr.String(), strconv.Itoa(int(m.Port))), m.Status, strings.Join(tags, ",")}
		for i, field := range fields {
			fields[i] = replaceControl(field)
		}
		fmt.Fprintln(table, strings.TrimRight(strings.Join(fields, "\t"), "\t"))
	}
	return table.Flush()
}

// replaceControl replaces each control character by a question mark, because names and tags come from the network.
func replaceControl(text string) string {
	return strings.Map(func(r rune) rune {
		if r < ' ' || r == 0x7f {
			return '?'
		}
		return r
	}, text)
}
