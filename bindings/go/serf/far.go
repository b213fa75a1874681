package serf

import (
	"time"

	"kitchenrue.example/serfagent"
)

// FarTime is a Lamport time that is implausibly far ahead. A program that may send packets could send a time close to 2^64, which would
// leave a clock almost no times; a node whose clock is exhausted can never fire again. So a packet or a state with an implausibly far time
// is dropped before the proved agent receives it.
//
// A time is far if it is at least FarTime plus the time of day in nanoseconds since 1970. A fixed limit would not help.
// A flood of times just below it would push the clocks up to the limit; every event fired after that would be beyond
// the limit, and a node whose clock begins at 0 would never accept one. This limit rises by one per nanosecond, faster
// than anybody can fire, so it soon exceeds these clocks on each node whose time of day is right.
const FarTime = 1 << 62

// farThreshold returns the first time that is far at this time of day. It is at most 2^63, which it reaches in 2116.
func farThreshold(now time.Time) uint64 {
	const maxSeconds = FarTime / 1_000_000_000
	switch seconds := now.Unix(); {
	case seconds < 0:
		return FarTime
	case seconds >= maxSeconds:
		return 2 * FarTime
	default:
		return FarTime + uint64(now.UnixNano())
	}
}

// nearMargin allows for a machine whose time of day is set back: the node still accepts a far time if it exceeds the
// node's own clock by at most nearMargin. These times could rise faster than the threshold only if somebody sent two
// million packets per second.
const nearMargin = 512

// isFar reports whether a packet or a state contains a far time that isn't near this node's own clock of the same kind.
func (s *Serf) isFar(data []byte) bool {
	times, err := readTimes(data)
	if err != nil {
		// (if the library refuses the packet too, the packet moves no clock, and the library's error has the reason)
		return !isMalformed(data)
	}
	if times.max() < FarTime {
		return false
	}
	threshold := farThreshold(s.config.timeOfDay())
	if times.max() < threshold {
		return false
	}
	clocks, err := s.agent.Clocks()
	isBeyond := func(time, clock uint64) bool { return time >= threshold && time > clock && time-clock > nearMargin }
	return err != nil || isBeyond(times.member, clocks.Member) || isBeyond(times.event, clocks.Event) || isBeyond(times.query, clocks.Query)
}

// isMalformed reports whether the library refuses a packet, an intent or a state regardless of the agent's clocks.
func isMalformed(data []byte) bool {
	if len(data) > 0 && (data[0] == leaveType || data[0] == joinType) {
		_, isBad := serfagent.IntentErrorOf(data)
		return isBad
	}
	_, isBad := serfagent.PacketErrorOf(data)
	return isBad
}

// warnOfFarClocks logs a warning for each clock of the snapshot that is so far ahead that other nodes drop the packets
// with its times.
func (s *Serf) warnOfFarClocks() {
	clocks, err := s.agent.Clocks()
	if err != nil {
		return
	}
	threshold := farThreshold(s.config.timeOfDay())
	for _, clock := range []struct {
		name, carriers string
		time           uint64
	}{
		{"clock", "join and leave intents", clocks.Member}, {"event-clock", "events", clocks.Event},
		{"query-clock", "queries", clocks.Query},
	} {
		if clock.time >= threshold {
			s.log.Printf("[WARN] serf: the snapshot's %s is at %d, implausibly far ahead, so other nodes drop this node's %s: "+
				"see AGENT.md, \"A clock that is too far\"", clock.name, clock.time, clock.carriers)
		}
	}
}
