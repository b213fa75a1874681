// tools/rust_of_header.py makes this file from include/serf_agent.h.

//! The calls.

use crate::structs::*;

extern "C" {
    /// Opens an agent on the text of the host's file, in an empty handle. If the text's last line is torn, the first pending bytes
    /// end it. If the settings keep events, an event or a query that the file keeps counts as handed out. One that it doesn't keep is
    /// handed out when it arrives, as long as its time is still within the buffer.
    pub fn serf_agent_open(
        handle: *mut Handle,
        name: *const u8,
        name_len: usize,
        settings: *const Settings,
        text: *const u8,
        text_len: usize,
    ) -> u32;
    /// Closes the agent. The handle is empty afterwards.
    pub fn serf_agent_close(handle: *mut Handle) -> u32;
    /// Returns the bytes that are pending for the file: their length, and as many of them as fit.
    pub fn serf_agent_pending(handle: *mut Handle, bytes: *mut Bytes, to: *mut u8, room: usize) -> u32;
    /// Confirms that the host wrote them to its file, and flushed it.
    pub fn serf_agent_flushed(handle: *mut Handle) -> u32;
    /// Fires an event: it is handed out here (`serf_agent_event`, number 0), and its packet is to be broadcast.
    pub fn serf_agent_fire(
        handle: *mut Handle,
        name: *const u8,
        name_len: usize,
        payload: *const u8,
        payload_len: usize,
        coalesce: bool,
    ) -> u32;
    /// Handles a packet from the network; `serf_agent_result` returns the result. The agent doesn't know its node's tags. If a query
    /// has tag filters (those of `serf_agent_query_filters` whose first byte is 1), the host passes true for tags_pass only if it
    /// could read every one of them and its tags pass all of them. Then the query is handed out if its other filters let this node
    /// pass.
    pub fn serf_agent_receive(handle: *mut Handle, now: u64, packet: *const u8, packet_len: usize, tags_pass: bool) -> u32;
    /// Merges another agent's whole state. If memory runs out after the merge began (`SERF_AGENT_OUT_OF_MEMORY`), the getters return
    /// the events that it accepted before. The host writes their lines and hands them out as usual. The same merge, made again,
    /// returns only the other events. If the settings keep events and ignore old ones, a join first writes a line with its minimum
    /// time, so that this minimum also holds in later lives.
    pub fn serf_agent_merge(handle: *mut Handle, packet: *const u8, packet_len: usize, is_join: bool) -> u32;
    /// Makes the packet to send with the agent's whole state. It contains the members that `serf_agent_add_status` and
    /// `serf_agent_add_left` named since the last attempt. Each attempt forgets them, unless memory runs out.
    pub fn serf_agent_local_state(handle: *mut Handle) -> u32;
    /// Names a member and its status time for the next state.
    pub fn serf_agent_add_status(handle: *mut Handle, name: *const u8, name_len: usize, status_time: u64) -> u32;
    /// Names a member that left, for the next state.
    pub fn serf_agent_add_left(handle: *mut Handle, name: *const u8, name_len: usize) -> u32;
    /// Fires a query with the filters that `serf_agent_add_filter` added since the last attempt. Each attempt forgets them, unless
    /// memory runs out.
    pub fn serf_agent_query(
        handle: *mut Handle,
        now: u64,
        id: u32,
        name: *const u8,
        name_len: usize,
        payload: *const u8,
        payload_len: usize,
        addr: *const u8,
        addr_len: usize,
        params: *const Params,
    ) -> u32;
    /// Adds a filter to the next query: the bytes of a filter as Serf writes them. It may also be called while bytes are pending for
    /// the file, and within a burst.
    pub fn serf_agent_add_filter(handle: *mut Handle, filter: *const u8, filter_len: usize) -> u32;
    /// Answers the query with this number. After a success, it can't be answered again.
    pub fn serf_agent_respond(handle: *mut Handle, now: u64, number: u64, payload: *const u8, payload_len: usize) -> u32;
    /// Forgets the query with this number, which the host will not answer. A query that was handed out uses memory until it is
    /// answered or forgotten.
    pub fn serf_agent_forget_query(handle: *mut Handle, number: u64) -> u32;
    /// Closes the open queries whose deadline is before a moment, and returns how many it closed. Until the next call,
    /// `serf_agent_closed` and the getters after it return them. Queries that were handed out are forgotten if their deadline is
    /// before the moment, since nobody accepts their answers any more. If memory runs out, no query is closed or forgotten.
    pub fn serf_agent_close_due(handle: *mut Handle, now: u64, closed: *mut usize) -> u32;
    /// Observes the time of a member's intent or status: from then on, the member clock is later than this time. If the time is
    /// 2^64 - 1, which isn't valid, the code is `SERF_AGENT_EXHAUSTED`. The previous call's result stays. For a join or a leave
    /// intent about its own node, a host uses the member clock (clocks) as the time, observes it, and saves the clock. After the
    /// clock's line is written, no later life uses this time again.
    pub fn serf_agent_observe_member(handle: *mut Handle, time: u64) -> u32;
    /// Writes a line with the member clock, so that a restart resumes from it.
    pub fn serf_agent_save_member_clock(handle: *mut Handle) -> u32;
    /// Makes the text that replaces the file's: one line for each clock, and, if the settings keep events, the lines of what the
    /// buffers hold.
    pub fn serf_agent_compact(handle: *mut Handle) -> u32;
    /// Handles a packet as the next call of the burst, as `serf_agent_receive` does.
    pub fn serf_agent_burst_receive(handle: *mut Handle, now: u64, packet: *const u8, packet_len: usize, tags_pass: bool) -> u32;
    /// Fires an event as the next call of the burst, as `serf_agent_fire` does.
    pub fn serf_agent_burst_fire(
        handle: *mut Handle,
        name: *const u8,
        name_len: usize,
        payload: *const u8,
        payload_len: usize,
        coalesce: bool,
    ) -> u32;
    /// Fires a query as the next call of the burst, with the filters that `serf_agent_add_filter` added since the last attempt. Each
    /// attempt forgets them, unless memory runs out.
    pub fn serf_agent_burst_query(
        handle: *mut Handle,
        now: u64,
        id: u32,
        name: *const u8,
        name_len: usize,
        payload: *const u8,
        payload_len: usize,
        addr: *const u8,
        addr_len: usize,
        params: *const Params,
    ) -> u32;
    /// Moves on to the next outcome, and returns the code of its call. The getters then read that call's result, as after a call
    /// outside a burst. If none is left, the code is `SERF_AGENT_NOTHING`, and the previous result can no longer be read. If memory
    /// runs out, no outcome is lost: try again.
    pub fn serf_agent_next(handle: *mut Handle, answered: *mut u32) -> u32;
    /// Returns how many outcomes wait for `serf_agent_next`.
    pub fn serf_agent_outcomes(handle: *mut Handle, total: *mut usize) -> u32;
    /// The result of the last call.
    pub fn serf_agent_result(handle: *mut Handle, result: *mut CallResult) -> u32;
    /// An event that the last call handed out, counted from 0, and as much of its texts as fits.
    pub fn serf_agent_event(
        handle: *mut Handle,
        index: usize,
        event: *mut Event,
        name: *mut u8,
        name_room: usize,
        payload: *mut u8,
        payload_room: usize,
    ) -> u32;
    /// What an ack's or a response's packet contains, and as much of its texts as fits. If the packet is neither, the code is
    /// `SERF_AGENT_NOTHING`. If the result of `serf_agent_receive` was ACK or RESPONSE, this is what it counted. It needs no handle.
    pub fn serf_agent_answer(
        packet: *const u8,
        packet_len: usize,
        answer: *mut Answer,
        from: *mut u8,
        from_room: usize,
        payload: *mut u8,
        payload_room: usize,
    ) -> u32;
    /// Why a packet is not a message. It needs no handle and allocates no memory. If the packet is a message, even of a type that the
    /// agent doesn't read, the code is `SERF_AGENT_NOTHING`, and nothing is written.
    pub fn serf_agent_packet_error(packet: *const u8, packet_len: usize, error: *mut PacketError) -> u32;
    /// What an intent's packet contains, and as much of the node's name as fits. If the packet is another message, whose bytes are
    /// not checked, the code is `SERF_AGENT_NOTHING`. If it is not a message, or a faulty intent, the code is
    /// `SERF_AGENT_NO_MESSAGE`. It needs no handle and allocates no memory.
    pub fn serf_agent_intent(packet: *const u8, packet_len: usize, intent: *mut Intent, node: *mut u8, node_room: usize) -> u32;
    /// Why `serf_agent_intent` returns `SERF_AGENT_NO_MESSAGE`. If it doesn't, the code is `SERF_AGENT_NOTHING`, and nothing is
    /// written.
    pub fn serf_agent_intent_error(packet: *const u8, packet_len: usize, error: *mut PacketError) -> u32;
    /// An intent's packet: its length, and as much of it as fits. The code is `SERF_AGENT_EXHAUSTED` if the time is 2^64 - 1, which
    /// isn't valid, and `SERF_AGENT_TOO_LONG` if the name is longer than 4,294,967,295 bytes. Memory may run out
    /// (`SERF_AGENT_OUT_OF_MEMORY`). It needs no handle.
    pub fn serf_agent_join_packet(time: u64, node: *const u8, node_len: usize, len: *mut usize, to: *mut u8, room: usize) -> u32;
    /// An intent's packet: its length, and as much of it as fits. The code is `SERF_AGENT_EXHAUSTED` if the time is 2^64 - 1, which
    /// isn't valid, and `SERF_AGENT_TOO_LONG` if the name is longer than 4,294,967,295 bytes. Memory may run out
    /// (`SERF_AGENT_OUT_OF_MEMORY`). It needs no handle.
    pub fn serf_agent_leave_packet(
        time: u64,
        node: *const u8,
        node_len: usize,
        prune: bool,
        len: *mut usize,
        to: *mut u8,
        room: usize,
    ) -> u32;
    /// What a push/pull's packet says about members: how many it names; as many of them as fit, first those with a status time and
    /// then those that left, each in the packet's order; and as much of their names as fits, one after another in the same order. If
    /// the packet is not a push/pull, the code is `SERF_AGENT_NOTHING`. Memory may run out (`SERF_AGENT_OUT_OF_MEMORY`). It needs no
    /// handle.
    pub fn serf_agent_state_members(
        packet: *const u8,
        packet_len: usize,
        all: *mut Members,
        members: *mut Member,
        members_room: usize,
        names: *mut u8,
        names_room: usize,
    ) -> u32;
    /// The filters of a query's packet, in its order: how many there are; the lengths of as many of them as fit; and as much of their
    /// bytes as fits, one after another. If the packet is not a query, the code is `SERF_AGENT_NOTHING`. Memory may run out
    /// (`SERF_AGENT_OUT_OF_MEMORY`). It needs no handle.
    pub fn serf_agent_query_filters(
        packet: *const u8,
        packet_len: usize,
        all: *mut Filters,
        lens: *mut usize,
        lens_room: usize,
        filters: *mut u8,
        filters_room: usize,
    ) -> u32;
    /// The time of the query that the last call (query) fired.
    pub fn serf_agent_query_time(handle: *mut Handle, time: *mut u64) -> u32;
    /// The packet to send that the last call made (fire, query, local_state, respond): its length, and as much of it as fits.
    pub fn serf_agent_packet(handle: *mut Handle, len: *mut usize, to: *mut u8, room: usize) -> u32;
    /// This node's ack of a query that is handed out here (receive, query), to send to the query's address and port.
    pub fn serf_agent_ack(handle: *mut Handle, len: *mut usize, to: *mut u8, room: usize) -> u32;
    /// A query that was handed out and that is neither answered nor forgotten, and as much of its texts as fits.
    pub fn serf_agent_pending_query(
        handle: *mut Handle,
        number: u64,
        handed: *mut PendingQuery,
        name: *mut u8,
        name_room: usize,
        payload: *mut u8,
        payload_room: usize,
        source: *mut u8,
        source_room: usize,
        addr: *mut u8,
        addr_room: usize,
    ) -> u32;
    /// The agent's clocks, and the minimum times of what it accepts.
    pub fn serf_agent_clocks(handle: *mut Handle, clocks: *mut Clocks) -> u32;
    /// The earliest deadline of the open queries. If none is open, the code is `SERF_AGENT_NOTHING`.
    pub fn serf_agent_next_deadline(handle: *mut Handle, deadline: *mut u64) -> u32;
    /// How many of this agent's own queries still accept answers.
    pub fn serf_agent_open_queries(handle: *mut Handle, open: *mut usize) -> u32;
    /// A query that the last call closed (close_due), counted from 0 in the order in which they were fired.
    pub fn serf_agent_closed(handle: *mut Handle, index: usize, closed: *mut Closed) -> u32;
    /// The name of a node that acked a closed query, counted from 0 in order of arrival: its length, and as much of it as fits.
    pub fn serf_agent_closed_ack(handle: *mut Handle, index: usize, number: usize, len: *mut usize, to: *mut u8, room: usize) -> u32;
    /// A response to a closed query, counted from 0 in order of arrival, and as much of its texts as fits.
    pub fn serf_agent_closed_response(
        handle: *mut Handle,
        index: usize,
        number: usize,
        response: *mut Response,
        from: *mut u8,
        from_room: usize,
        payload: *mut u8,
        payload_room: usize,
    ) -> u32;
    /// Whether the file has more bytes than the limit, and `serf_agent_compact` would remove at least half of them. It is never true
    /// if the limit is 2^64 - 1.
    pub fn serf_agent_should_compact(handle: *mut Handle, limit: u64, should: *mut bool) -> u32;
    /// The events that a text, such as the whole text of the host's file, leaves open, in the order in which they were handed out:
    /// how many there are; as many of them as fit; and as much of their names and payloads as fits, one after another: the name and
    /// then the payload of the first event, then those of the next.
    pub fn serf_agent_open_events(
        text: *const u8,
        text_len: usize,
        all: *mut OpenEvents,
        events: *mut OpenEvent,
        events_room: usize,
        texts: *mut u8,
        texts_room: usize,
    ) -> u32;
    /// The line that opens an event in a text that replaces the file's: its length, and as much of it as fits. The code of this and
    /// the next three calls is `SERF_AGENT_EXHAUSTED` if the time is 2^64 - 1, which isn't valid.
    pub fn serf_agent_open_line(
        time: u64,
        name: *const u8,
        name_len: usize,
        payload: *const u8,
        payload_len: usize,
        len: *mut usize,
        to: *mut u8,
        room: usize,
    ) -> u32;
    /// The line that says that an event's handler has begun. The host flushes it before the handler starts.
    pub fn serf_agent_begun_line(
        time: u64,
        name: *const u8,
        name_len: usize,
        payload: *const u8,
        payload_len: usize,
        len: *mut usize,
        to: *mut u8,
        room: usize,
    ) -> u32;
    /// The line that says that an event is done. It can be flushed together with the next bytes.
    pub fn serf_agent_done_line(
        time: u64,
        name: *const u8,
        name_len: usize,
        payload: *const u8,
        payload_len: usize,
        len: *mut usize,
        to: *mut u8,
        room: usize,
    ) -> u32;
    /// The line that says that all events of the lines above it are done, up to this time. After the first line of this form in a
    /// file, nothing is open.
    pub fn serf_agent_done_up_to_line(time: u64, len: *mut usize, to: *mut u8, room: usize) -> u32;
}
