// This program measures how many events per second a node accepts through memberlist on the loopback address. speed/run
// compiles it twice: with Serf's own package, and with ours in its place.
//
//	speed FOLDER [EVENTS]
//
// The node receives the packets of another node's events. Each datagram contains as many packets as a datagram of
// memberlist's gossip. At most 768 packets are in flight, so that none is dropped (memberlist queues 1,024). The node's
// buffer has room for all times, since memberlist handles the last packet first. The node's snapshot is in FOLDER. The
// program counts the events on the node's channel, and prints how many seconds they took and how many events per second
// that is. If SPEED_PLAIN is set, the node uses memberlist's own transport, without the guard.
package main

import (
	"encoding/binary"
	"fmt"
	"io"
	"log"
	"net"
	"os"
	"path/filepath"
	"strconv"
	"sync/atomic"
	"time"

	"github.com/hashicorp/memberlist"
	"github.com/hashicorp/serf/serf"
)

// maxInFlight is the maximum number of packets in flight. eventBuffer is the number of Lamport times in the node's
// event buffer.
const (
	maxInFlight = 768
	eventBuffer = 32768
)

// check ends the program if err isn't nil.
func check(err error) {
	if err != nil {
		log.Fatal(err)
	}
}

// eventPackets returns the packets of another node's events, with the Lamport times from 1 to count.
func eventPackets(count int) (list [][]byte) {
	for time := 1; time <= count; time++ {
		packet := binary.BigEndian.AppendUint32([]byte("\x03\x84\xa5LTime\xce"), uint32(time))
		list = append(list, append(packet, "\xa4Name\xa6deploy\xa7Payload\xb9version 12 of the program\xa2CC\xc2"...))
	}
	return list
}

// packDatagrams packs the packets into memberlist's compound messages of at most 1,400 bytes. counts has the number of
// packets in each of them.
func packDatagrams(packets [][]byte) (datagrams [][]byte, counts []int) {
	for len(packets) > 0 {
		count, size := 0, 2
		for count < len(packets) && count < 255 && size+3+len(packets[count]) <= 1400 {
			size += 3 + len(packets[count])
			count++
		}
		datagram := []byte{7, byte(count)}
		for _, packet := range packets[:count] {
			datagram = binary.BigEndian.AppendUint16(datagram, uint16(1+len(packet)))
		}
		for _, packet := range packets[:count] {
			datagram = append(append(datagram, 8), packet...)
		}
		datagrams, counts, packets = append(datagrams, datagram), append(counts, count), packets[count:]
	}
	return datagrams, counts
}

// sendAll sends the packets to a node whose events are counted in handled, and returns how long that took.
func sendAll(packets [][]byte, to string, handled *atomic.Int64) time.Duration {
	datagrams, counts := packDatagrams(packets)
	socket, err := net.Dial("udp", to)
	check(err)
	defer socket.Close()
	began := time.Now()
	awaitHandled := func(count int) {
		for handled.Load() < int64(count) {
			time.Sleep(20 * time.Microsecond)
			if time.Since(began) > time.Minute {
				log.Fatalf("only %d of %d events arrived", handled.Load(), count)
			}
		}
	}
	for i, sentCount := 0, 0; i < len(datagrams); i++ {
		sentCount += counts[i]
		awaitHandled(sentCount - maxInFlight)
		_, err := socket.Write(datagrams[i])
		check(err)
	}
	awaitHandled(len(packets))
	return time.Since(began)
}

// startNode starts a node with a snapshot. handled counts its user events.
func startNode(path string) (created *serf.Serf, handled *atomic.Int64) {
	events, handled := make(chan serf.Event, 64), &atomic.Int64{}
	config := serf.DefaultConfig()
	config.NodeName, config.EventCh, config.LogOutput = "node", events, io.Discard
	config.SnapshotPath, config.EventBuffer = path, eventBuffer
	list := config.MemberlistConfig
	list.BindAddr, list.BindPort, list.AdvertisePort, list.LogOutput = "127.0.0.1", 0, 0, io.Discard
	if os.Getenv("SPEED_PLAIN") != "" {
		plain, err := memberlist.NewNetTransport(
			&memberlist.NetTransportConfig{BindAddrs: []string{list.BindAddr}, Logger: log.New(io.Discard, "", 0)},
		)
		check(err)
		list.Transport, list.BindPort, list.AdvertisePort = plain, plain.GetAutoBindPort(), plain.GetAutoBindPort()
	}
	created, err := serf.Create(config)
	check(err)
	go func() {
		for event := range events {
			if _, ok := event.(serf.UserEvent); ok {
				handled.Add(1)
			}
		}
	}()
	return created, handled
}

func main() {
	count := 20000
	switch len(os.Args) {
	case 2:
	case 3:
		var err error
		count, err = strconv.Atoi(os.Args[2])
		check(err)
	default:
		log.Fatal("speed FOLDER [EVENTS]")
	}
	path := filepath.Join(os.Args[1], "node.snapshot")
	os.Remove(path)
	defer os.Remove(path)
	node, handled := startNode(path)
	local := node.LocalMember()
	took := sendAll(eventPackets(count), fmt.Sprintf("%s:%d", local.Addr, local.Port), handled)
	fmt.Printf("%.2f s, %.0f a second\n", took.Seconds(), float64(count)/took.Seconds())
	check(node.Shutdown())
}
