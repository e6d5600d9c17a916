// Command restarts PATH NUMBER does what the lines of its input say, over one Journal, and prints a
// line for each: "lazy" and "stable" count up an object of this number, by a commit that does not
// wait or waits, and print "ok COUNT". "flush" and "stat" print "ok". A call that tells that the
// service was started again prints "restarted", and another that fails prints its error.
package main

import (
	"bufio"
	"encoding/binary"
	"errors"
	"fmt"
	"os"
	"strconv"

	"palkhuveg.invalid/jnl"
)

type counter struct {
	journal *jnl.Journal
	at      jnl.Address
	count   uint64
}

func (c *counter) countUp(durability jnl.Durability) (string, error) {
	value := make([]byte, 128)
	binary.LittleEndian.PutUint64(value, c.count+1)
	tx := c.journal.Begin()
	tx.Write(c.at, value)
	if _, err := tx.Commit(durability); err != nil {
		return "", err
	}
	c.count++
	return fmt.Sprintf("ok %d", c.count), nil
}

func (c *counter) do(line string) (string, error) {
	switch line {
	case "lazy":
		return c.countUp(jnl.Lazy)
	case "stable":
		return c.countUp(jnl.Stable)
	case "stat":
		_, err := c.journal.Stat()
		return "ok", err
	default:
		_, err := c.journal.Flush()
		return "ok", err
	}
}

func (c *counter) told(line string) string {
	told, err := c.do(line)
	switch {
	case errors.Is(err, jnl.ErrRestarted):
		return "restarted"
	case err != nil:
		return err.Error()
	default:
		return told
	}
}

func main() {
	if len(os.Args) < 3 {
		fmt.Fprintln(os.Stderr, "usage: restarts PATH NUMBER")
		os.Exit(2)
	}
	number, err := strconv.ParseUint(os.Args[2], 10, 32)
	journal, failure := jnl.Dial("unix", os.Args[1])
	if err != nil || failure != nil {
		fmt.Println(err, failure)
		os.Exit(1)
	}
	c := counter{journal: journal, at: jnl.Address{Block: 527, Bit: 1024 * uint32(number)}}
	lines := bufio.NewScanner(os.Stdin)
	for lines.Scan() {
		fmt.Println(c.told(lines.Text()))
	}
}
