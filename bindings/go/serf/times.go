package serf

import "kitchenrue.example/guard/msgpack"

// clockTimes has, for each clock, the largest time in a packet or a state, or 0 if it has no time of that clock.
type clockTimes struct{ member, event, query uint64 }

// max returns the largest of the three times.
func (t clockTimes) max() uint64 {
	max := t.member
	for _, time := range []uint64{t.event, t.query} {
		if time > max {
			max = time
		}
	}
	return max
}

// readTimes reads the times of an intent, an event, a query or a state. For other messages it returns no times, since
// they move no clock. For every packet that the library accepts, it reads the same times as the library. If it returns
// an error, the library refuses the packet.
func readTimes(packet []byte) (clockTimes, error) {
	var found clockTimes
	if len(packet) == 0 {
		return found, msgpack.ErrLong
	}
	d := newDecoder(packet[1:])
	switch packet[0] {
	case leaveType, joinType:
		d.readTimeInto(&found.member)
	case eventType:
		d.readTimeInto(&found.event)
	case queryType:
		d.readTimeInto(&found.query)
	case stateType:
		d.readStateTimes(&found)
	default:
		return found, nil
	}
	return found, d.finish()
}

// readTimeInto reads the time of a message's map, and raises max to it.
func (d *decoder) readTimeInto(max *uint64) {
	d.readMap(func(key string) bool {
		if key == "LTime" {
			d.readLaterTime(max)
		}
		return key == "LTime"
	})
}

// readLaterTime reads a time, and raises max to it.
func (d *decoder) readLaterTime(max *uint64) {
	if time := d.readUnsigned(); time > *max {
		*max = time
	}
}

// readStateTimes reads the times of a state's map.
func (d *decoder) readStateTimes(times *clockTimes) {
	d.readMap(func(key string) bool {
		switch key {
		case "LTime":
			d.readLaterTime(&times.member)
		case "StatusLTimes":
			for pairs := d.readMapHeader(); pairs > 0 && d.Err == nil; pairs-- {
				d.readText()
				d.readLaterTime(&times.member)
			}
		case "EventLTime":
			d.readLaterTime(&times.event)
		case "Events":
			for slots := d.readArrayHeader(); slots > 0 && d.Err == nil; slots-- {
				d.readTimeInto(&times.event)
			}
		case "QueryLTime":
			d.readLaterTime(&times.query)
		default:
			return false
		}
		return true
	})
}
