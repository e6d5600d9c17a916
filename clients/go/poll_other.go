//go:build !linux

package jnl

// awaitShortly leaves the waiting to the runtime.
func awaitShortly(uintptr) {}
