package serfagent

// #include "serf_agent.h"
import "C"

import "encoding/binary"

// TagFilter is the first byte of a tag filter. The agent doesn't know its node's tags: see Agent.Receive.
const TagFilter = 1

// FilterByNames returns a filter for QueryParams that the nodes with these names pass.
func FilterByNames(names ...string) []byte {
	filter := appendHead([]byte{0}, 0x90, 16, 0xdc, len(names))
	for _, name := range names {
		filter = append(appendHead(filter, 0xa0, 32, 0xda, len(name)), name...)
	}
	return filter
}

// FilterByTag returns a filter for QueryParams that a node passes if the expression matches a part of the tag's value.
// Serf compiles the expression with the package regexp.
func FilterByTag(tag, expression string) []byte {
	filter := []byte{TagFilter, 0x82}
	for _, text := range []string{"Expr", expression, "Tag", tag} {
		filter = append(appendHead(filter, 0xa0, 32, 0xda, len(text)), text...)
	}
	return filter
}

// appendHead appends the head of a MessagePack value with count bytes or elements: the short form, or one of the two
// wide ones.
func appendHead(data []byte, short byte, shortCount int, wide byte, count int) []byte {
	switch {
	case count < shortCount:
		return append(data, short|byte(count))
	case count <= 0xffff:
		return binary.BigEndian.AppendUint16(append(data, wide), uint16(count))
	}
	return binary.BigEndian.AppendUint32(append(data, wide+1), uint32(count))
}

// FiltersOf returns the filters of a query's packet, in order, or nil if the packet is no query. It needs no agent.
func FiltersOf(packet []byte) ([][]byte, error) {
	var sizes C.struct_serf_agent_filters
	var lengths []C.size_t
	var filters []byte
	// The first call returns the sizes, and the second one the filters.
	for i := 0; i < 2; i++ {
		// One more, because C needs an address even if there are no filters.
		lengths, filters = make([]C.size_t, sizes.filters+1), make([]byte, sizes.filters_len)
		err := errorOf(C.serf_agent_query_filters(
			ptr(packet), size(packet), &sizes, &lengths[0], C.size_t(len(lengths)-1), ptr(filters), size(filters),
		))
		if err == Nothing {
			return nil, nil
		}
		if err != nil {
			return nil, err
		}
	}
	list := make([][]byte, 0, sizes.filters)
	for _, length := range lengths[:sizes.filters] {
		list = append(list, filters[:length:length])
		filters = filters[length:]
	}
	return list, nil
}
