// Pays 100 to Alice, moves 30 from Alice to Bob, and prints both balances.
//
// It uses the service of bank.disk at bank.sock, as docs/EMBEDDING.md begins one. That page says
// how to build it.
package main

import (
	"encoding/binary"
	"fmt"
	"log"

	"palkhuveg.invalid/jnl"
)

var alice, bob = jnl.Address{Block: 515}, jnl.Address{Block: 515, Bit: 1024}

func pay(t *jnl.Tx, who jnl.Address, money int64) error {
	value, err := t.Read(who)
	if err != nil {
		return err
	}
	balance := int64(binary.LittleEndian.Uint64(value)) + money
	if balance < 0 {
		return fmt.Errorf("%v has too little", who)
	}
	binary.LittleEndian.PutUint64(value, uint64(balance))
	t.Write(who, value)
	return nil
}

func transfer(t *jnl.Tx) error {
	if err := pay(t, alice, -30); err != nil {
		return err
	}
	return pay(t, bob, 30)
}

func main() {
	j, err := jnl.Dial("unix", "bank.sock")
	if err != nil {
		log.Fatal(err)
	}
	defer j.Close()
	payAlice := func(t *jnl.Tx) error { return pay(t, alice, 100) }
	for _, work := range []func(*jnl.Tx) error{payAlice, transfer} {
		if _, err := j.Run(jnl.Stable, work); err != nil {
			log.Fatal(err)
		}
	}
	both, err := j.Read(alice, bob)
	if err != nil {
		log.Fatal(err)
	}
	fmt.Println(binary.LittleEndian.Uint64(both[0]), binary.LittleEndian.Uint64(both[1]))
}
