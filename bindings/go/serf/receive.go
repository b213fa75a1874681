package serf

import (
	"strings"
	"time"

	"github.com/armon/go-metrics"

	"kitchenrue.example/serfagent"
)

// receive processes packets and states while the pipe has room for their events, and closes the queries whose deadline has passed.
func (s *Serf) receive() {
	secondTicker := time.NewTicker(time.Second)
	defer secondTicker.Stop()
	defer s.reportNames()
	var reported reportedDrops
	for {
		var err error
		packets, states := s.packets.ready, s.states.ready
		room := s.pipe.room()
		select {
		case <-room:
			room = nil
		default:
			packets, states = nil, nil
		}
		select {
		case <-s.ctx.Done():
			return
		case <-room:
		case <-states:
			err = s.mergeWaitingStates()
		case <-packets:
			err = s.receivePackets()
		case <-s.queryDue:
			err = s.closeDue()
		case <-secondTicker.C:
			s.reportDropped(&reported)
			s.reportNames()
			s.states.signalAgain()
			err = s.closeDue()
		}
		if isFinal(err) {
			return
		}
	}
}

// reportedDrops has the counts of dropped packets at the time of the last report.
type reportedDrops struct {
	dropped, droppedFar, droppedKept int64
	refused                          uint64
}

// reportDropped logs how many packets and states were dropped since the last report, and why.
func (s *Serf) reportDropped(last *reportedDrops) {
	refused, reasons := s.guardRefusals()
	current := reportedDrops{s.dropped.Load(), s.droppedFar.Load(), s.droppedKept.Load(), refused}
	if current.dropped > last.dropped {
		s.log.Printf("[WARN] serf: %d packets or states were dropped, since too many are waiting", current.dropped-last.dropped)
	}
	if current.droppedFar > last.droppedFar {
		s.log.Printf("[WARN] serf: %d packets or states were dropped, since they contain a time that is implausibly far ahead",
			current.droppedFar-last.droppedFar)
	}
	if current.droppedKept > last.droppedKept {
		s.log.Printf("[WARN] serf: %d packets or states were dropped, since the limit of %d bytes for kept events is reached",
			current.droppedKept-last.droppedKept, s.config.KeepEventsSize)
	}
	if current.refused > last.refused {
		s.log.Printf("[WARN] serf: %d packets, streams or parts of them were refused by the guard; by reason since the start: %s",
			current.refused-last.refused, reasons)
	}
	*last = current
}

// mergeWaitingStates merges the waiting states, as long as there is room for their events.
func (s *Serf) mergeWaitingStates() error { return s.useAgent(func() error { return nil }) }

// mergeState merges another node's state: its events, and the statuses of its members. The caller holds agentMu.
func (s *Serf) mergeState(state queuedMessage) error {
	if s.isFar(state.data) {
		s.droppedFar.Add(1)
		return nil
	}
	events, err := s.mergeEvents(state)
	s.mergedEvents.Add(int64(len(events)))
	// (even after an error, since the agent may have accepted some events before memory ran out)
	s.stage(events...)
	s.flushStaged()
	if err != nil {
		s.log.Printf("[WARN] serf: a state was not processed: %v", err)
		return err
	}
	members, err := serfagent.MembersOf(state.data)
	if err != nil {
		s.log.Printf("[WARN] serf: the members of a state were not processed: %v", err)
		return nil
	}
	if members == nil {
		return nil
	}
	mustRefute, leaveTime := s.members.mergeState(members)
	if !mustRefute {
		return nil
	}
	// (the join intent has to be later than that leave, even if the member clock in the state isn't)
	err = s.agent.ObserveMember(leaveTime)
	s.refuteLeave()
	return err
}

// mergeEvents merges the events of a state. If there is no room for the events, it only raises the member clock.
func (s *Serf) mergeEvents(state queuedMessage) ([]*serfagent.Event, error) {
	if state.isJoin || s.keptEvents.admitState(state.data) {
		return s.agent.Merge(state.data, state.isJoin)
	}
	s.droppedKept.Add(1)
	times, err := readTimes(state.data)
	if err != nil {
		return nil, nil
	}
	return nil, s.agent.ObserveMember(times.member)
}

// maxPacketsPerTurn is how many packets receivePackets reads in one call. The limit keeps a flood of intents and relays
// from delaying the packets of the proved agent.
const maxPacketsPerTurn = 4 * Burst

// receivePackets reads the waiting packets. It applies intents and forwards relays itself, and passes all other packets
// to the proved agent in bursts of up to Burst packets.
func (s *Serf) receivePackets() error {
	var burst [][]byte
	for count := 0; count < maxPacketsPerTurn && len(burst) < Burst; count++ {
		packet, ok := s.packets.next()
		if !ok {
			break
		}
		if s.isFar(packet.data) {
			s.droppedFar.Add(1)
			continue
		}
		if !s.keptEvents.admitPacket(packet.data) {
			s.droppedKept.Add(1)
			continue
		}
		switch packet.data[0] {
		case leaveType, joinType:
			if err := s.receiveIntent(packet.data); err != nil {
				return err
			}
		case relayType:
			s.relayPacket(packet.data)
		default:
			burst = append(burst, packet.data)
		}
	}
	if len(burst) == 0 {
		return nil
	}
	return s.processBurst(burst)
}

// processBurst processes packets and the waiting firings with one flush. It returns an error if the node accepts
// nothing more, or if memory ran out before all packets were processed.
func (s *Serf) processBurst(packets [][]byte) error {
	inputs := make([]Packet, len(packets))
	for i, packet := range packets {
		inputs[i] = Packet{packet, s.ownTagsPass(packet)}
	}
	var outcomes []serfagent.Outcome
	err := s.useAgent(func() (err error) {
		outcomes, err = s.runBurst(inputs)
		return err
	})
	if unprocessed := len(packets) - len(outcomes); unprocessed > 0 && err == serfagent.OutOfMemory {
		s.log.Printf("[WARN] serf: %d packets were not processed: %v", unprocessed, err)
	}
	for i, outcome := range outcomes {
		if outcome.Received == nil {
			s.log.Printf("[DEBUG] serf: a packet of type %d was refused: %v", packets[i][0], outcome.Err)
			continue
		}
		s.ackAndRebroadcast(packets[i], outcome.Received)
	}
	return err
}

// runBurst passes a burst of packets and waiting firings to the proved agent, and publishes the events and queries that
// the agent hands out. It returns the outcomes of the packets. The caller holds agentMu.
func (s *Serf) runBurst(packets []Packet) ([]serfagent.Outcome, error) {
	var firings []*firing
	var inputs []Firing
	if s.pipe.hasRoom() {
		firings, inputs = s.firings.takeBatch(Burst)
	} else {
		refused, _ := s.firings.takeBatch(Waiting)
		s.firings.refuse(refused, ErrBusy)
	}
	if len(packets)+len(firings) == 0 {
		return nil, nil
	}
	began := time.Now()
	outcomes, err := s.agent.TakeAll(s.now(), packets, inputs)
	took := time.Since(began)
	packetOutcomes, firingOutcomes := splitOutcomes(outcomes, len(packets))
	s.recordFirings(firings, firingOutcomes, err)
	// (the callers are woken early, so that they can fire again while this goroutine does the rest)
	s.firings.wakeCallers(firings, took)
	metrics.MeasureSince(appendKey, time.Now().Add(-took))
	addSample(len(packets)+len(firings), burstKey)
	for _, outcome := range packetOutcomes {
		if received := outcome.Received; received != nil {
			s.countIgnored(received)
			s.stage(received.Event)
			s.stageQuery(received.Query, nil)
			s.deliverAnswer(received)
		}
	}
	for i, outcome := range firingOutcomes {
		if outcome.Fired != nil {
			s.stageEvent(outcome.Fired.Event, inputs[i].Payload)
		}
	}
	s.flushStaged()
	return packetOutcomes, err
}

// splitOutcomes separates the outcomes of a burst's packets from those of its firings, which follow them. If memory ran
// out, the last outcomes are missing.
func splitOutcomes(outcomes []serfagent.Outcome, packetCount int) (packetOutcomes, firingOutcomes []serfagent.Outcome) {
	if len(outcomes) <= packetCount {
		return outcomes, nil
	}
	return outcomes[:packetCount], outcomes[packetCount:]
}

// recordFirings sets the results of firings, and queues their packets for gossip. A firing without an outcome gets the
// error. The caller holds agentMu.
func (s *Serf) recordFirings(firings []*firing, outcomes []serfagent.Outcome, err error) {
	broadcasts := make([]broadcast, 0, len(firings))
	for i, firing := range firings {
		firing.err = err
		if i < len(outcomes) {
			firing.err = outcomes[i].Err
			if fired := outcomes[i].Fired; fired != nil {
				firing.time = LamportTime(fired.Event.Time)
				broadcasts = append(broadcasts, broadcast{fired.Packet, nil})
			}
		}
	}
	s.events.add(broadcasts...)
}

// receiveIntent applies an intent. It returns an error only if the node accepts nothing more.
func (s *Serf) receiveIntent(packet []byte) error {
	intent, err := parseIntent(packet)
	if err != nil {
		s.log.Printf("[DEBUG] serf: an intent was refused: %v", err)
		return nil
	}
	if err := s.useAgent(func() error { return s.agent.ObserveMember(intent.Time) }); isFinal(err) {
		return err
	} else if err != nil {
		s.log.Printf("[WARN] serf: an intent was not processed: %v", err)
		return nil
	}
	outcome := s.members.receiveIntent(intent)
	if outcome.isNew {
		s.queueBroadcast(s.intents, packet, nil)
	}
	if outcome.mustRefute {
		s.refuteLeave()
	}
	return nil
}

// parseIntent returns the intent of a packet, or the error in it.
func parseIntent(packet []byte) (serfagent.Intent, error) {
	intent, err := serfagent.IntentOf(packet)
	if intent != nil {
		return *intent, nil
	}
	if packetErr, ok := serfagent.IntentErrorOf(packet); ok {
		return serfagent.Intent{}, packetErr
	}
	return serfagent.Intent{}, err
}

// ackAndRebroadcast sends this node's ack of a query if there is one, and queues the packet for gossip if the node has
// to rebroadcast it.
func (s *Serf) ackAndRebroadcast(packet []byte, received *serfagent.Received) {
	if received.Query != nil && received.Ack != nil {
		s.sendReply(received.Query, received.Ack)
	}
	if received.Rebroadcast {
		queue := s.events
		if packet[0] == queryType {
			queue = s.queries
		}
		s.queueBroadcast(queue, packet, nil)
	}
}

// stage prepares events that were handed out, until flushStaged publishes them. The caller holds agentMu.
func (s *Serf) stage(events ...*serfagent.Event) {
	for _, event := range events {
		if event != nil {
			s.stageEvent(event, nil)
		}
	}
}

// stageEvent prepares an event. If this node fired the event, firedPayload is the payload that the caller passed; otherwise it
// is nil. The caller holds agentMu.
func (s *Serf) stageEvent(event *serfagent.Event, firedPayload []byte) {
	s.countKeptEvent(event)
	s.seenTimes.add(event.Time)
	s.checkForGap(event.Time)
	delivered := UserEvent{
		LamportTime(event.Time), s.eventNames.countName(event.Name), payloadOf(event.Payload, firedPayload), event.Coalesce,
	}
	if s.openEvents != nil {
		s.openEvents.add(delivered)
	}
	s.staged = append(s.staged, delivered)
}

// payloadOf returns a payload as Serf delivers it: an empty payload is nil, unless this node fired the event with an
// empty slice that isn't nil.
func payloadOf(payload, firedPayload []byte) []byte {
	switch {
	case len(payload) > 0:
		return payload
	case firedPayload != nil:
		return []byte{}
	}
	return nil
}

// flushStaged publishes the staged events and queries. The caller holds agentMu.
func (s *Serf) flushStaged() {
	s.publish(s.staged...)
	for i := range s.staged {
		s.staged[i] = nil
	}
	s.staged = s.staged[:0]
}

// maxUnanswered is how many queries can be answered at once: the last ones that were handed out. It is twice the number
// of events that may wait for EventCh.
const maxUnanswered = 2 * Waiting

// InternalQueryPrefix is the prefix of the names of queries that agents send each other. EventCh does not deliver these
// queries.
const InternalQueryPrefix = "_serf_"

// forgetQuery makes the proved agent forget a query that this node won't answer. The agent may have forgotten the query
// already, because it was answered or its deadline has passed.
func (s *Serf) forgetQuery(number uint64) { _ = s.agent.Forget(number) }

// stageQuery prepares a query that was handed out, as stageEvent does for events. It passes internal queries on to answerInternalQueries.
func (s *Serf) stageQuery(query *serfagent.PendingQuery, firedPayload []byte) {
	if query == nil {
		return
	}
	if query.Number > maxUnanswered {
		s.forgetQuery(query.Number - maxUnanswered)
	}
	name := s.queryNames.countName(query.Name)
	if strings.HasPrefix(name, InternalQueryPrefix) {
		select {
		case s.internalQueries <- query:
		default:
			s.log.Printf("[WARN] serf: the query %s was dropped, since too many internal queries are waiting", name)
			s.forgetQuery(query.Number)
		}
		return
	}
	s.staged = append(
		s.staged,
		&Query{LTime: LamportTime(query.Time), Name: name, Payload: payloadOf(query.Payload, firedPayload), serf: s, pending: query},
	)
}
