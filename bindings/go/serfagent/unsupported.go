//go:build !linux || !(amd64 || arm64) || !cgo

package serfagent

// On systems for which there is no library, the compiler reports this name as undefined, and the name says why.
var _ = serfagent_is_for_Linux_on_x86_64_or_aarch64_and_needs_cgo_with_a_C_compiler
