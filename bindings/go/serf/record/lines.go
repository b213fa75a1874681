package record

import (
	"encoding/binary"
	"strconv"

	"kitchenrue.example/serfagent"
)

// lines is a text of calls and replies, in the format of docs/SPEC.md.
type lines struct{ text []byte }

// line begins a line. If the line before has no end yet, it ends that one first.
func (l *lines) line(word string) *lines {
	if len(l.text) > 0 && l.text[len(l.text)-1] != '\n' {
		l.text = append(l.text, '\n')
	}
	l.text = append(l.text, word...)
	return l
}

// word appends a word to the line. The methods below append other values in the same way.
func (l *lines) word(word string) *lines {
	l.text = append(append(l.text, ' '), word...)
	return l
}

func (l *lines) number(n uint64) *lines {
	l.text = strconv.AppendUint(append(l.text, ' '), n, 10)
	return l
}

// bytes appends bytes in hex, or - if there are none.
func (l *lines) bytes(data []byte) *lines {
	if len(data) == 0 {
		return l.word("-")
	}
	l.text = appendHex(append(l.text, ' '), data)
	return l
}

// name appends a name in hex.
func (l *lines) name(name string) *lines { return l.bytes([]byte(name)) }

// hexDigits has the two digits of each byte. The first digit is the low half of the number.
var hexDigits = makeHexDigits()

func makeHexDigits() (digits [256]uint16) {
	const all = "0123456789abcdef"
	for i := range digits {
		digits[i] = uint16(all[i>>4]) | uint16(all[i&15])<<8
	}
	return digits
}

// appendHex appends bytes in hex. Most of a record is in hex, so this function writes eight digits at a time, which takes
// about half the time of package hex.
func appendHex(text, data []byte) []byte {
	from := len(text)
	text = append(text, make([]byte, 2*len(data))...)
	to := text[from:]
	for len(data) >= 4 && len(to) >= 8 {
		first := uint64(hexDigits[data[0]]) | uint64(hexDigits[data[1]])<<16
		second := uint64(hexDigits[data[2]]) | uint64(hexDigits[data[3]])<<16
		binary.LittleEndian.PutUint64(to, first|second<<32)
		data, to = data[4:], to[8:]
	}
	for _, b := range data {
		binary.LittleEndian.PutUint16(to, hexDigits[b])
		to = to[2:]
	}
	return text
}

func (l *lines) boolean(value bool) *lines {
	if value {
		return l.word("1")
	}
	return l.word("0")
}

// endReply ends a reply with its empty line.
func (l *lines) endReply() { l.text = append(l.text, "\n\n"...) }

// writeMoment writes when the calls after it were made, in nanoseconds since 1970.
func (l *lines) writeMoment(nanoseconds int64) {
	l.line("at").number(uint64(nanoseconds))
	l.text = append(l.text, '\n')
}

// writeSent writes the line of a packet that is sent, if there is one.
func (l *lines) writeSent(packet []byte) {
	if packet != nil {
		l.line("sent").bytes(packet)
	}
}

// writeEvent writes the line of an event that is handed out, if there is one.
func (l *lines) writeEvent(event *serfagent.Event) {
	if event != nil {
		l.line("event").number(event.Time).name(event.Name).bytes(event.Payload).boolean(event.Coalesce)
	}
}

// writeHanded writes the line of a query that is handed out, if there is one. number is its number in this life.
func (l *lines) writeHanded(query *serfagent.PendingQuery, number uint64) {
	if query != nil {
		l.line("handed").number(number).number(query.Time).number(uint64(query.ID)).name(query.Name).bytes(query.Payload)
	}
}

// clockLines returns a snapshot's lines with these clocks.
func clockLines(clocks serfagent.Clocks) (text []byte) {
	for _, line := range []struct {
		word  string
		clock uint64
	}{{"clock: ", clocks.Member}, {"event-clock: ", clocks.Event}, {"query-clock: ", clocks.Query}} {
		if line.clock > 1 {
			text = append(strconv.AppendUint(append(text, line.word...), line.clock-1, 10), '\n')
		}
	}
	return text
}

// writeOpen writes the call that begins a life on this text, and its reply with the agent's clocks.
func (l *lines) writeOpen(name string, settings serfagent.Settings, text []byte, clocks serfagent.Clocks) {
	mode := "keep"
	if settings.IgnoreOld {
		mode = "ignore"
	}
	if settings.KeepEvents {
		mode += "+events"
	}
	l.line("open").name(name).number(settings.EventBuffer).number(settings.QueryBuffer).number(settings.EventLimit)
	l.number(settings.Responders).word(mode).number(settings.PerTime)
	defaults := serfagent.DefaultSettings()
	if settings.QueryLimit != defaults.QueryLimit || settings.ResponseLimit != defaults.ResponseLimit {
		l.number(settings.QueryLimit).number(settings.ResponseLimit)
	}
	l.bytes(text)
	l.line("opened").number(clocks.Member).number(clocks.Event).number(clocks.Query).endReply()
}

// writeReceived writes the reply to a packet, or why the packet was refused. word is the word that the packet is in the
// call, with the space before it.
func (l *lines) writeReceived(packet, word []byte, outcome serfagent.Outcome, number uint64) {
	received := outcome.Received
	if received == nil {
		l.writeRefusal(outcome.Err, packet)
		return
	}
	switch received.Kind {
	case serfagent.NewEvent:
		l.line("new")
	case serfagent.NewQuery:
		l.line("query")
	case serfagent.Ack:
		l.line("ack").line("counted ack").number(received.Answer.Time).number(uint64(received.Answer.ID)).name(received.Answer.From)
	case serfagent.Response:
		l.line("response").line("counted response").number(received.Answer.Time).number(uint64(received.Answer.ID))
		l.name(received.Answer.From).bytes(received.Answer.Payload)
	case serfagent.Ignored:
		l.line("ignored").word(received.Reason.String())
	case serfagent.Foreign:
		l.line("foreign").number(uint64(received.Foreign))
	case serfagent.PushPull:
		l.line("push-pull")
	}
	if received.Rebroadcast {
		// (the agent sends on exactly these bytes)
		l.line("sent")
		l.text = append(l.text, word...)
	}
	l.writeSent(received.Ack)
	l.writeEvent(received.Event)
	l.writeHanded(received.Query, number)
}

// refusalWord returns the word for why a call was refused, or "" if the call failed for another reason.
func refusalWord(err error) string {
	switch err {
	case serfagent.TooLarge:
		return "TooLarge"
	case serfagent.TooLong:
		return "TooLong"
	case serfagent.Exhausted:
		return "Exhausted"
	case serfagent.NoTime:
		return "ZeroTimeout"
	case serfagent.PastDeadline:
		return "PastDeadline"
	case serfagent.NotPushPull:
		return "NotPushPull"
	case serfagent.RespondersFull:
		return "RespondersFull"
	case serfagent.NotPending:
		return "NoQuery"
	}
	return ""
}

// writeRefusal writes the reply to a call that was refused. If the call failed for another reason, such as memory or
// the disk, it writes nothing and returns false.
func (l *lines) writeRefusal(err error, packet []byte) bool {
	if word := refusalWord(err); word != "" {
		l.line("refused").word(word)
		return true
	}
	packetErr, ok := serfagent.PacketErrorOf(packet)
	if err != serfagent.NoMessage || !ok {
		return false
	}
	l.line("refused Wire").word(packetErr.Kind.String())
	switch packetErr.Kind {
	case serfagent.ErrorEmpty, serfagent.ErrorNotAMap:
	case serfagent.ErrorUnknownType:
		l.number(uint64(packetErr.Byte))
	case serfagent.ErrorUnsupported:
		l.number(uint64(packetErr.Byte)).number(uint64(packetErr.Offset))
	default:
		l.number(uint64(packetErr.Offset))
	}
	return true
}
