package jnl

import (
	"encoding/binary"
	"io"
	"net"
	"path/filepath"
	"testing"
	"time"
)

// The test of this file has a port of its own, which reads and answers when the test says so.

// slowPort greets a client, reads one record, waits until it may go on, and then answers that
// record and each of those that follow, one by one.
func slowPort(listener net.Listener, mayGoOn <-chan struct{}) {
	peer, err := listener.Accept()
	if err != nil {
		return
	}
	defer peer.Close()
	greet(peer)
	nextOf(peer)
	<-mayGoOn
	for commits := uint64(1); ; commits++ {
		if send(peer, committed(commits)) != nil || nextOf(peer) != nil {
			return
		}
	}
}

// greet answers the hello of a client.
func greet(peer net.Conn) {
	nextOf(peer)
	opening := newRequest(0, 0).word(opHello).word(version).address(Address{Block: 600})
	send(peer, opening.word(7).word(257).word(128).word(0))
}

// committed is the answer to a commit.
func committed(commits uint64) []byte {
	receipt := binary.BigEndian.AppendUint64(newRequest(0, 0).word(opCommit), commits-1)
	return binary.BigEndian.AppendUint64(receipt, commits)
}

func nextOf(peer net.Conn) error {
	var length [lengthBytes]byte
	if _, err := io.ReadFull(peer, length[:]); err != nil {
		return err
	}
	_, err := io.CopyN(io.Discard, peer, int64(binary.BigEndian.Uint32(length[:])))
	return err
}

func send(peer net.Conn, record []byte) error {
	_, err := peer.Write(recordOf(record))
	return err
}

func recordOf(text []byte) []byte {
	return append(request(nil).word(uint32(len(text))), text...)
}

// waitFor waits until something holds, with the lock of the connection held, but not for ever.
func waitFor(t *testing.T, c *connection, what string, holds func() bool) {
	t.Helper()
	ends := time.Now().Add(20 * time.Second)
	for ; time.Now().Before(ends); time.Sleep(time.Millisecond) {
		c.mu.Lock()
		isSo := holds()
		c.mu.Unlock()
		if isSo {
			return
		}
	}
	t.Fatalf("%s: not in time", what)
}

// TestSomebodyReadsWhileTheSocketTakesNothing has a goroutine read until its own answer is there,
// while another one writes more than the port takes before its answers are read.
func TestSomebodyReadsWhileTheSocketTakesNothing(t *testing.T) {
	listener, err := net.Listen("unix", filepath.Join(t.TempDir(), "port"))
	if err != nil {
		t.Fatal(err)
	}
	defer listener.Close()
	mayGoOn, first := make(chan struct{}), make(chan error, 1)
	go slowPort(listener, mayGoOn)
	j := dialOrFail(t, listener.Addr().String())
	c := j.connection.Load()
	go func() { first <- setBit(j, freeBit) }()
	waitFor(t, c, "who reads", func() bool { return c.isReading })
	flights := make([]call, 1900)
	for i := range flights {
		flights[i] = call{operation: opCommit, isFlight: true}
		if !c.hold(&flights[i], [][]byte{make([]byte, 128)}) {
			t.Fatal(c.err)
		}
		c.mu.Unlock()
	}
	go pushHeld(c)
	waitFor(t, c, "a full socket", func() bool { return c.isBlocked })
	close(mayGoOn)
	if err := <-first; err != nil {
		t.Fatal(err)
	}
	waitFor(t, c, "the end of the records", func() bool { return !c.isWriting })
}
