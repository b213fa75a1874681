package serf

import (
	"encoding/hex"
	"hash/maphash"
	"strconv"
	"strings"
	"sync"

	"kitchenrue.example/serfagent"
)

// Values of Config.KeepEventsSize, in bytes of the file: the default, the minimum and the maximum.
const (
	DefaultKeepEventsSize = 32 << 20
	MinKeepEventsSize     = 1 << 20
	MaxKeepEventsSize     = 1 << 30
)

// compactCheckGrowth is how many bytes the file may grow before the node checks whether to compact it.
const compactCheckGrowth = 1 << 20

// eventPrefix begins the line of an event. eventOverhead is how many bytes the line has in addition to the name and the
// payload, which take two hex digits per byte (docs/SPEC.md).
const (
	eventPrefix   = "#event "
	eventOverhead = 30
)

// keptEvents limits how many bytes the kept events use in the file and in memory. All times share half of the limit.
// The other half is divided equally among the times of the window, so a flood of events at some times takes nothing
// from the shares of the others.
//
// keptEvents counts the events that it lets pass to the proved agent. If the agent ignores some of them, fewer bytes
// are kept than keptEvents has counted.
type keptEvents struct {
	mu sync.Mutex
	// timeShare is how many bytes are reserved for each time, and sharedRoom is how many bytes of the shared half are
	// left.
	timeShare, sharedRoom int64
	slots                 []keptTime
	seed                  maphash.Seed
}

// keptTime has the counted bytes of one time, and the hashes of its counted events.
type keptTime struct {
	time   uint64
	bytes  int64
	hashes map[uint64]struct{}
}

func newKeptEvents(limit int64, times int) *keptEvents {
	return &keptEvents{timeShare: limit / 2 / int64(times), sharedRoom: limit / 2, slots: make([]keptTime, times), seed: maphash.MakeSeed()}
}

// limitKeptEvents makes the node's keptEvents if KeepEvents is set, and counts the events that the file already has.
func (s *Serf) limitKeptEvents() error {
	if !s.config.KeepEvents || s.snapshot == nil {
		return nil
	}
	s.keptEvents = newKeptEvents(int64(s.config.KeepEventsSize), s.config.EventBuffer)
	return readFileLines(s.snapshot.path, s.keptEvents.countLine)
}

// countKeptEvent counts an event that was handed out, whichever node fired it. If the file has grown enough, it signals that
// the file should be checked. The caller holds agentMu.
func (s *Serf) countKeptEvent(event *serfagent.Event) {
	s.grownBytes += maxClockLines
	if s.keptEvents != nil {
		s.keptEvents.admit(event.Time, []byte(event.Name), event.Payload, true)
		s.grownBytes += eventOverhead + 2*(len(event.Name)+len(event.Payload))
	}
	if s.grownBytes >= compactCheckGrowth {
		signal(s.memberLines.ready)
	}
}

// excessOverShare returns by how many bytes the events of one time exceed the share of that time.
func (k *keptEvents) excessOverShare(bytes int64) int64 {
	if bytes > k.timeShare {
		return bytes - k.timeShare
	}
	return 0
}

// admit reports whether there is room for an event, and counts the event if there is. An event that was counted before,
// or whose time has been overwritten, needs no room. isKept means that the file already has the event, so admit counts
// it even if there is no room.
func (k *keptEvents) admit(time uint64, name, payload []byte, isKept bool) bool {
	k.mu.Lock()
	defer k.mu.Unlock()
	slot := &k.slots[time%uint64(len(k.slots))]
	if time < slot.time {
		return true
	}
	var hash maphash.Hash
	hash.SetSeed(k.seed)
	_, _ = hash.Write(name)
	_ = hash.WriteByte(0)
	_, _ = hash.Write(payload)
	hash64 := hash.Sum64()
	if time == slot.time {
		if _, ok := slot.hashes[hash64]; ok {
			return true
		}
	}
	bytesBefore := slot.bytes
	if time > slot.time {
		bytesBefore = 0
	}
	bytesAfter := bytesBefore + eventOverhead + 2*int64(len(name)+len(payload))
	roomLeft := k.sharedRoom + k.excessOverShare(slot.bytes) - k.excessOverShare(bytesAfter)
	if bytesAfter > k.timeShare && roomLeft < 0 && !isKept {
		return false
	}
	// (the first event of a slot may have time 0: no node fires an event at that time, but anybody may send one)
	if time > slot.time || slot.hashes == nil {
		*slot = keptTime{time: time, hashes: map[uint64]struct{}{}}
	}
	k.sharedRoom, slot.bytes = roomLeft, bytesAfter
	slot.hashes[hash64] = struct{}{}
	return true
}

// countLine counts an event whose line is in the file.
func (k *keptEvents) countLine(line string) {
	if !strings.HasPrefix(line, eventPrefix) {
		return
	}
	words := strings.Split(line[len(eventPrefix):], " ")
	if len(words) != 3 {
		return
	}
	time, err := strconv.ParseUint(words[0], 10, 64)
	name, nameErr := hex.DecodeString(words[1])
	payload, payloadErr := hex.DecodeString(words[2])
	if err == nil && nameErr == nil && payloadErr == nil {
		k.admit(time, name, payload, true)
	}
}

// admitPacket reports whether there is room for a packet. Only events need room.
func (k *keptEvents) admitPacket(data []byte) bool {
	if k == nil || data[0] != eventType {
		return true
	}
	d := newDecoder(data[1:])
	time, name, payload := d.readEvent()
	return d.finish() != nil || k.admit(time, name, payload, false)
}

// readEvent reads the map of an event. An event inside a slot has no separate time, so the time is 0.
func (d *decoder) readEvent() (time uint64, name, payload []byte) {
	d.readMap(func(key string) bool {
		switch key {
		case "LTime":
			time = d.readUnsigned()
		case "Name":
			name = d.readText()
		case "Payload":
			payload = d.readText()
		default:
			return false
		}
		return true
	})
	return time, name, payload
}

// admitState reports whether there is room for all events of a state.
func (k *keptEvents) admitState(data []byte) bool {
	if k == nil {
		return true
	}
	hasRoom := true
	d := newDecoder(data[1:])
	d.readMap(func(key string) bool {
		if key != "Events" {
			return false
		}
		for count := d.readArrayHeader(); count > 0 && d.Err == nil; count-- {
			hasRoom = k.admitSlot(d) && hasRoom
		}
		return true
	})
	return hasRoom
}

// admitSlot reports whether there is room for all events of one slot. The slot's time may follow its events in the map.
func (k *keptEvents) admitSlot(d *decoder) bool {
	var time uint64
	var events [][2][]byte
	d.readMap(func(key string) bool {
		switch key {
		case "LTime":
			time = d.readUnsigned()
		case "Events":
			for count := d.readArrayHeader(); count > 0 && d.Err == nil; count-- {
				_, name, payload := d.readEvent()
				events = append(events, [2][]byte{name, payload})
			}
		default:
			return false
		}
		return true
	})
	hasRoom := true
	for _, event := range events {
		hasRoom = k.admit(time, event[0], event[1], false) && hasRoom
	}
	return hasRoom
}
