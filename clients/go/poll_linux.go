package jnl

import (
	"syscall"
	"unsafe"
)

// So long a thread waits for answers itself. A goroutine that becomes ready meanwhile is run by
// another thread, or after that.
const moment = 200_000 // nanoseconds

// pollIn is what poll calls readable.
const pollIn = 1

// awaitShortly waits a moment, or until there is something to read from a socket.
func awaitShortly(socket uintptr) {
	of := struct {
		socket        int32
		asked, answer int16
	}{socket: int32(socket), asked: pollIn}
	limit := syscall.NsecToTimespec(moment)
	syscall.Syscall6(syscall.SYS_PPOLL, uintptr(unsafe.Pointer(&of)), 1,
		uintptr(unsafe.Pointer(&limit)), 0, 0, 0)
}
