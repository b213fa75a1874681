package serfagent

// #include "serf_agent.h"
import "C"

// Members has the statuses of members that another agent's state contains.
type Members struct {
	// MemberClock is the sender's member clock.
	MemberClock uint64
	// Statuses are the members' names, each with the time of its status.
	Statuses []Status
	// Left are the names of the members that left.
	Left []string
}

// MembersOf returns the statuses of members in a push/pull's packet, or nil if the packet is not a push/pull. It needs
// no agent. Merge handles the events of the same packet.
func MembersOf(packet []byte) (*Members, error) {
	var sizes C.struct_serf_agent_members
	var members []C.struct_serf_agent_member
	var names []byte
	// The first call returns the sizes, and the second one the members.
	for i := 0; i < 2; i++ {
		// One more, because C needs an address even if there are no members.
		members, names = make([]C.struct_serf_agent_member, sizes.members+1), make([]byte, sizes.names_len)
		err := errorOf(C.serf_agent_state_members(ptr(packet), size(packet), &sizes, &members[0], C.size_t(len(members)-1),
			ptr(names), size(names)))
		if err == Nothing {
			return nil, nil
		}
		if err != nil {
			return nil, err
		}
	}
	result := &Members{MemberClock: uint64(sizes.member_clock)}
	for _, member := range members[:sizes.members] {
		name := string(names[:member.name_len])
		names = names[member.name_len:]
		if member.left {
			result.Left = append(result.Left, name)
		} else {
			result.Statuses = append(result.Statuses, Status{name, uint64(member.status_time)})
		}
	}
	return result, nil
}

// Status is a member's name and the Lamport time of its status.
type Status struct {
	Name string
	Time uint64
}

// forgetMembers discards the members that were left when a call of LocalState failed. To do so, it makes the library
// encode a state, and ignores that state.
func (a *Agent) forgetMembers() error {
	if !a.staleMembers {
		return nil
	}
	return checkForgotten(C.serf_agent_local_state(a.handle))
}

// LocalState returns the packet with this agent's whole state. The state includes the given status times of members and
// the names of the members that left.
func (a *Agent) LocalState(statuses []Status, left []string) ([]byte, error) {
	a.mu.Lock()
	defer a.mu.Unlock()
	if err := a.forgetMembers(); err != nil {
		return nil, err
	}
	a.staleMembers = len(statuses)+len(left) > 0
	for _, status := range statuses {
		if err := errorOf(C.serf_agent_add_status(a.handle, ptr(status.Name), size(status.Name), C.uint64_t(status.Time))); err != nil {
			return nil, err
		}
	}
	for _, name := range left {
		if err := errorOf(C.serf_agent_add_left(a.handle, ptr(name), size(name))); err != nil {
			return nil, err
		}
	}
	if err := a.complete(C.serf_agent_local_state(a.handle)); err != nil {
		return nil, err
	}
	a.staleMembers = false
	return a.packet(false)
}

// ObserveMember passes the Lamport time of a member's intent or status to the agent. After that, the member clock is
// later than this time.
func (a *Agent) ObserveMember(time uint64) error {
	a.mu.Lock()
	defer a.mu.Unlock()
	return a.complete(C.serf_agent_observe_member(a.handle, C.uint64_t(time)))
}

// NextMemberTime returns the Lamport time for an intent of this node. The member clock is on the disk by then, so no
// later life of the agent uses this time again.
func (a *Agent) NextMemberTime() (uint64, error) {
	a.mu.Lock()
	defer a.mu.Unlock()
	var clocks C.struct_serf_agent_clocks
	if err := errorOf(C.serf_agent_clocks(a.handle, &clocks)); err != nil {
		return 0, err
	}
	if err := errorOf(C.serf_agent_observe_member(a.handle, clocks.member)); err != nil {
		return 0, err
	}
	return uint64(clocks.member), a.complete(C.serf_agent_save_member_clock(a.handle))
}

// SaveMemberClock appends the member clock to the file, so that the next life resumes from it.
func (a *Agent) SaveMemberClock() error {
	a.mu.Lock()
	defer a.mu.Unlock()
	return a.complete(C.serf_agent_save_member_clock(a.handle))
}
