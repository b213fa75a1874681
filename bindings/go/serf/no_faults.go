//go:build !faults

package serf

import "github.com/hashicorp/memberlist"

// withFaults returns the transport unchanged. In a build with the tag faults, which is for tests, it injects faults
// (faults.go).
func withFaults(transport memberlist.Transport) (memberlist.Transport, error) { return transport, nil }
