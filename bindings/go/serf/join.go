package serf

import (
	"context"
	"errors"
	"fmt"
	"math/rand"
	"net"
	"strconv"
	"strings"
	"time"

	"kitchenrue.example/serfagent"
)

// announceRetryDelay is how long to wait before trying again to send a join intent, if memory ran out.
const announceRetryDelay = time.Second

// Join joins the cluster through nodes that are given by address, by name or as name/address, and returns how many of
// them it has joined. If ignoreOld is true, this node ignores events that were fired before. The node sends its join
// intent soon after; the intent has to wait for the disk, but Join does not. Join returns an error only if it has
// joined no node.
func (s *Serf) Join(existing []string, ignoreOld bool) (int, error) {
	if s.State() != SerfAlive {
		return 0, ErrLeft
	}
	if ignoreOld {
		s.ignoringJoins.Add(1)
		defer s.ignoringJoins.Add(-1)
	}
	count, err := s.memberlist().Join(existing)
	if count > 0 {
		// (at least one node was joined, so errors for the others don't matter)
		signal(s.announceNeeded)
		signal(s.missedEvents)
		return count, nil
	}
	return 0, err
}

// JoinContext is like Join, but gives up when ctx is done. It then returns how many nodes it has joined so far, and the
// error of ctx. It tries no further address after that. However, memberlist can't abort the attempt that is running, so
// that node may still be joined. Serf has no such method.
func (s *Serf) JoinContext(ctx context.Context, existing []string, ignoreOld bool) (int, error) {
	if s.State() != SerfAlive {
		return 0, ErrLeft
	}
	if err := ctx.Err(); err != nil {
		return 0, err
	}
	if ctx.Done() == nil {
		return s.Join(existing, ignoreOld)
	}
	type result struct {
		count int
		err   error
	}
	count, failures := 0, []string(nil)
	for _, address := range existing {
		joined := make(chan result, 1)
		go func(address string) {
			count, err := s.Join([]string{address}, ignoreOld)
			joined <- result{count, err}
		}(address)
		select {
		case tried := <-joined:
			count += tried.count
			if tried.err == ErrLeft {
				return count, ErrLeft
			} else if tried.err != nil {
				failures = append(failures, strings.TrimSpace(tried.err.Error()))
			}
		case <-ctx.Done():
			return count, ctx.Err()
		}
	}
	if count == 0 && len(failures) > 0 {
		return 0, errors.New(strings.Join(failures, "\n"))
	}
	return count, nil
}

// announceJoins sends a join intent whenever this node has joined other nodes, and whenever it has to refute that it
// left.
func (s *Serf) announceJoins() {
	for {
		select {
		case <-s.ctx.Done():
			return
		case <-s.announceNeeded:
		case <-s.refuteNeeded:
			if !s.members.mustRefuteLeave() {
				continue
			}
			s.log.Print("[DEBUG] serf: Refuting an older leave intent")
		}
		err := s.announce()
		if err != nil && !errors.Is(err, ErrEnded) {
			s.log.Printf("[WARN] serf: no join intent was sent: %v", err)
		}
		if err == serfagent.OutOfMemory {
			time.AfterFunc(announceRetryDelay, func() { signal(s.announceNeeded) })
		}
	}
}

// refuteLeave makes announceJoins send a new join intent, because other nodes wrongly believe that this node left.
// announceJoins skips it if the node has sent a later join intent in the meantime.
func (s *Serf) refuteLeave() {
	if s.State() == SerfAlive {
		signal(s.refuteNeeded)
	}
}

// announce sends a join intent, unless the node is leaving: no join intent may follow its leave intent.
func (s *Serf) announce() error {
	s.announceMu.Lock()
	defer s.announceMu.Unlock()
	if s.State() != SerfAlive {
		return nil
	}
	_, err := s.broadcastIntent(serfagent.Intent{Node: s.config.NodeName})
	return err
}

// broadcastIntent sends an intent with the next member time, and applies it here too.
func (s *Serf) broadcastIntent(intent serfagent.Intent) (sent chan struct{}, err error) {
	err = s.useAgent(func() (err error) {
		intent.Time, err = s.agent.NextMemberTime()
		return err
	})
	if err != nil {
		return nil, err
	}
	packet, err := intent.Packet()
	if err != nil {
		return nil, err
	}
	if string(intent.Node) == s.config.NodeName {
		status := StatusAlive
		if intent.Leave {
			status = StatusLeaving
		}
		s.members.setOwnStatus(status, intent.Time)
	} else {
		s.members.receiveIntent(intent)
	}
	sent = make(chan struct{})
	s.queueBroadcast(s.intents, packet, sent)
	return sent, nil
}

// joinAddress returns an address for memberlist's Join, with the node's name. If the name contains a slash, joinAddress
// leaves it out, since memberlist would look up the text after the slash as an address.
func joinAddress(name, addr string) string {
	if name == "" || strings.Contains(name, "/") {
		return addr
	}
	return name + "/" + addr
}

// rejoin joins one of the members that were alive according to the snapshot. It tries them in random order, until it
// reaches one. It does not ignore old events, since the snapshot says which events are old.
func (s *Serf) rejoin() {
	var addrs []string
	for _, previous := range s.previousNodes {
		if previous.Name != s.config.NodeName {
			addrs = append(addrs, joinAddress(previous.Name, previous.Addr))
		}
	}
	rand.Shuffle(len(addrs), func(i, j int) { addrs[i], addrs[j] = addrs[j], addrs[i] })
	for _, addr := range addrs {
		if s.State() != SerfAlive {
			return
		}
		s.log.Printf("[INFO] serf: Attempting re-join to previously known node: %s", addr)
		if _, err := s.Join([]string{addr}, false); err == nil {
			s.log.Printf("[INFO] serf: Re-joined to previously known node: %s", addr)
			return
		}
	}
	if len(addrs) > 0 {
		s.log.Print("[WARN] serf: Failed to re-join any previously known node")
	}
}

// IsGoingOn reports whether the node continues an earlier life whose snapshot keeps events. In that case the snapshot
// says which events are old, so the first join should be made without ignoreOld: otherwise the node would lose the
// events that the other nodes received in the meantime. Serf has no such method.
func (s *Serf) IsGoingOn() bool {
	if !s.config.KeepEvents || s.snapshot == nil {
		return false
	}
	if s.snapshot.marksOldEvents {
		return true
	}
	for _, previous := range s.previousNodes {
		if previous.Name != s.config.NodeName {
			return true
		}
	}
	return false
}

// Leave sends a leave intent and leaves the cluster. After a successful Leave, call Shutdown; the node is of no other
// use. If Leave can't send the intent, the node continues as before, and you may call Leave again. After a successful
// Leave, a second call does nothing. While a call is running, another one is refused.
func (s *Serf) Leave() error {
	s.stateMu.Lock()
	switch s.state {
	case SerfLeft:
		s.stateMu.Unlock()
		return nil
	case SerfLeaving:
		s.stateMu.Unlock()
		return errors.New("Leave already in progress")
	case SerfShutdown:
		s.stateMu.Unlock()
		return ErrEnded
	}
	s.state = SerfLeaving
	s.stateMu.Unlock()
	sent, err := s.announceLeave()
	if err != nil {
		return err
	}
	if s.members.count(StatusAlive) > 0 && !s.waitFor(sent, s.config.BroadcastTimeout) {
		s.log.Print("[WARN] serf: the leave intent may not have reached the other nodes")
	}
	if err := s.leaveMemberlist(); err == ErrEnded {
		return err
	} else if err != nil {
		s.log.Printf("[WARN] serf: timeout waiting for leave broadcast: %v", err)
	}
	s.memberLines.add("leave\n")
	s.waitFor(nil, s.config.LeavePropagateDelay)
	s.stateMu.Lock()
	defer s.stateMu.Unlock()
	if s.state == SerfLeaving {
		s.state = SerfLeft
	}
	return nil
}

// leaveMemberlist makes memberlist leave the cluster. If the node was shut down in the meantime, memberlist panics, and
// leaveMemberlist returns ErrEnded.
func (s *Serf) leaveMemberlist() (err error) {
	defer func() {
		switch value := recover(); value {
		case nil:
		case "leave after shutdown":
			err = ErrEnded
		default:
			panic(value)
		}
	}()
	return s.memberlist().Leave(s.config.BroadcastTimeout)
}

// announceLeave sends a leave intent. If that fails, the node does not leave. It then sends a join intent, because it
// may have held one back while it was leaving.
func (s *Serf) announceLeave() (sent chan struct{}, err error) {
	s.announceMu.Lock()
	defer s.announceMu.Unlock()
	sent, err = s.broadcastIntent(serfagent.Intent{Node: s.config.NodeName, Leave: true})
	if err != nil {
		s.stateMu.Lock()
		if s.state == SerfLeaving {
			s.state = SerfAlive
		}
		s.stateMu.Unlock()
		signal(s.announceNeeded)
	}
	return sent, err
}

// waitFor waits until done is closed, but no longer than maxWait, and not after the node has ended. It reports whether
// done was closed.
func (s *Serf) waitFor(done <-chan struct{}, maxWait time.Duration) bool {
	timeout := time.NewTimer(maxWait)
	defer timeout.Stop()
	select {
	case <-done:
		return true
	case <-timeout.C:
	case <-s.ctx.Done():
	}
	return false
}

// RemoveFailedNode makes all nodes treat a failed member as one that left.
func (s *Serf) RemoveFailedNode(node string) error { return s.forceLeave(node, false) }

// RemoveFailedNodePrune makes all nodes treat a member as one that left, and forget it. They forget a member that failed
// or left at once. A member that memberlist still holds as alive is leaving until it refutes the leave; they forget it
// as soon as memberlist has lost it.
func (s *Serf) RemoveFailedNodePrune(node string) error { return s.forceLeave(node, true) }

// forceLeave sends a leave intent for another member.
func (s *Serf) forceLeave(name string, prune bool) error {
	if name == s.config.NodeName {
		return errors.New("this is the name of the node itself: to leave, call Leave")
	}
	sent, err := s.broadcastIntent(serfagent.Intent{Node: name, Leave: true, Prune: prune})
	if err != nil {
		return err
	}
	if len(s.members.pickOthers(1)) > 0 && !s.waitFor(sent, s.config.BroadcastTimeout) {
		return errors.New("timed out broadcasting node removal")
	}
	return nil
}

// ownTags returns this node's tags. SetTags replaces the map and never changes it.
func (s *Serf) ownTags() map[string]string {
	s.tagsMu.Lock()
	defer s.tagsMu.Unlock()
	return s.tags
}

// nodeMeta encodes tags as the metadata that memberlist sends with a node. With protocol version 2, that is only the
// role.
func (c *Config) nodeMeta(tags map[string]string) ([]byte, error) {
	if c.ProtocolVersion >= 3 {
		return encodeTags(tags)
	}
	if len(tags["role"]) > maxTagsLength {
		return nil, errTagsTooLong
	}
	return []byte(tags["role"]), nil
}

// SetTags changes this node's tags and sends them to the other nodes. If the tags are too long, it returns an error and
// changes nothing.
func (s *Serf) SetTags(tags map[string]string) error {
	copied := make(map[string]string, len(tags))
	for key, value := range tags {
		copied[key] = value
	}
	meta, err := s.config.nodeMeta(copied)
	if err != nil {
		return err
	}
	s.tagsMu.Lock()
	s.tags, s.nodeMeta = copied, meta
	s.tagsMu.Unlock()
	if err := s.memberlist().UpdateNode(s.config.BroadcastTimeout); err != nil {
		return fmt.Errorf("the new tags may not have reached the other nodes: %w", err)
	}
	return nil
}

// reap forgets, at intervals, members that failed or left long ago.
func (s *Serf) reap() {
	ticker := time.NewTicker(s.config.ReapInterval)
	defer ticker.Stop()
	for {
		select {
		case <-s.ctx.Done():
			return
		case <-ticker.C:
			s.members.reap(s.config.ReconnectTimeout, s.config.TombstoneTimeout, s.State() == SerfLeft)
			s.coordinates.retain(s.members.sorted())
		}
	}
}

// reconnect tries, at intervals, to join a failed member again.
func (s *Serf) reconnect() {
	ticker := time.NewTicker(s.config.ReconnectInterval)
	defer ticker.Stop()
	for {
		select {
		case <-s.ctx.Done():
			return
		case <-ticker.C:
		}
		if member, ok := s.members.pickFailed(); ok && s.State() == SerfAlive {
			addr := net.JoinHostPort(member.Addr.String(), strconv.Itoa(int(member.Port)))
			s.log.Printf("[INFO] serf: attempting reconnect to %s %s", member.Name, addr)
			if _, err := s.memberlist().Join([]string{joinAddress(member.Name, addr)}); err != nil {
				s.log.Printf("[DEBUG] serf: reconnecting to %s failed: %v", member.Name, err)
			}
		}
	}
}
