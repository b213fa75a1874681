package main

import (
	"encoding/binary"
	"fmt"
	"math/rand"
	"time"

	"kitchenrue.example/serf"
)

// strangerAddress is the address of the hostile member.
const strangerAddress = "10.0.9.9:7946"

// The numbers of the messages of memberlist and of Serf that the hostile member sends.
const (
	userMessage   = 8
	checksummed   = 12
	checksumBytes = 5
	eventMessage  = 3
	relayMessage  = 9
)

// hostilePause is the mean time between two packets of the hostile member.
const hostilePause = 50 * time.Millisecond

// attack sends packets of the hostile member to random nodes until the step is over.
func (c *cluster) attack(s step, makePacket func(rng *rand.Rand) []byte) {
	rng := rand.New(rand.NewSource(s.seed))
	for end := time.Now().Add(s.duration); time.Now().Before(end) && !c.isHealed.Load(); {
		if made := makePacket(rng); made != nil {
			c.network.send(strangerAddress, c.nodes[rng.Intn(len(c.nodes))].address, made)
		}
		time.Sleep(time.Duration(rng.ExpFloat64() * float64(hostilePause)))
	}
}

// recordedPacket returns a packet that the hostile member recorded earlier.
func (c *cluster) recordedPacket(rng *rand.Rand) []byte {
	c.network.mu.Lock()
	defer c.network.mu.Unlock()
	if len(c.network.recordedPackets) == 0 {
		return nil
	}
	return append([]byte(nil), c.network.recordedPackets[rng.Intn(len(c.network.recordedPackets))]...)
}

// garbagePacket returns a recorded packet with changed bytes and without its checksum, or random bytes.
func (c *cluster) garbagePacket(rng *rand.Rand) []byte {
	packet := c.recordedPacket(rng)
	if packet == nil || rng.Intn(4) == 0 {
		packet = make([]byte, 1+rng.Intn(200))
		rng.Read(packet)
		return packet
	}
	if packet[0] == checksummed && len(packet) > checksumBytes {
		packet = packet[checksumBytes:]
	}
	for count := 1 + rng.Intn(4); count > 0; count-- {
		packet[rng.Intn(len(packet))] = byte(rng.Intn(256))
	}
	return packet
}

// encodeText returns a short text in MessagePack's encoding.
func encodeText(value string) []byte { return append([]byte{0xa0 | byte(len(value))}, value...) }

// eventPacket returns the packet of an event.
func eventPacket(at uint64, name string) []byte {
	packet := []byte{userMessage, eventMessage, 0x84}
	packet = append(append(packet, encodeText("LTime")...), 0xcf)
	packet = binary.BigEndian.AppendUint64(packet, at)
	packet = append(append(packet, encodeText("Name")...), encodeText(name)...)
	packet = append(append(packet, encodeText("Payload")...), encodeText("forged")...)
	return append(append(packet, encodeText("CC")...), 0xc2)
}

// farPacket returns the packet of an event whose time is implausibly far ahead.
func (c *cluster) farPacket(rng *rand.Rand) []byte {
	return eventPacket(1<<63+uint64(rng.Int63()), fmt.Sprint("far", rng.Intn(100)))
}

// forgedPacket returns the packet of an event that nobody fired, with a time close to the present one.
func (c *cluster) forgedPacket(rng *rand.Rand) []byte {
	c.ledger.mu.Lock()
	largest := serf.LamportTime(0)
	for _, h := range c.ledger.histories {
		if h.largest > largest {
			largest = h.largest
		}
	}
	c.ledger.mu.Unlock()
	name := fmt.Sprint("forged", rng.Intn(30))
	c.ledger.addForged(name)
	at := int64(largest) + int64(rng.Intn(7)) - 5
	if at < 1 {
		at = 1
	}
	return eventPacket(uint64(at), name)
}
