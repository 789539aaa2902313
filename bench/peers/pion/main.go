// usage: pion bytes|times|heap CHANNELS, or pion stream SERVER_PORT PEER_PORT COUNT
//
// Brings a client of pion to so many channels, and prints what ../main.c prints of the clients in C, by the same words. What the
// heap holds is counted after a garbage collection, and without the stacks of goroutines. Or sends a stream, as ../stream.c does.
package main

import (
	"encoding/binary"
	"encoding/hex"
	"fmt"
	"net"
	"os"
	"runtime"
	"strconv"
	"strings"
	"time"
)

const handshakes = 300

func fail(what string) {
	fmt.Fprintf(os.Stderr, "bench: %s is not what it should be\n", what)
	os.Exit(1)
}

func check(err error, what string) {
	if err != nil {
		fail(what + ": " + err.Error())
	}
}

// A row is a name, what a turn of it does, and what that answers: the length of the packet or of the data.
type row struct {
	name   string
	turn   func() int
	wanted int
}

// The turns use the channel in the middle, as in ../main.c.
func rowsOf(c *client, channels int) []row {
	middle := channels / 2
	peer := peerAddr(middle, port)
	other := peerAddr(middle, otherPort)
	frame, around := channelData(firstChannel+middle), channelData(firstChannel)
	peers := make([]net.Addr, channels)
	for i := range peers {
		peers[i] = peerAddr(i, port)
	}
	indication := dataIndication(peer)
	return []row{
		{"frame_out", func() int { return c.send(peer) }, 4 + payloadLen},
		{"frame_in", func() int { return c.receive(frame) }, payloadLen},
		{"around_out", func() int { return c.send(peers[c.next()]) }, 4 + payloadLen},
		{"around_in", func() int {
			binary.BigEndian.PutUint16(around, uint16(firstChannel+c.next()))
			return c.receive(around)
		}, payloadLen},
		{"send_out", func() int { return c.send(other) }, 36 + payloadLen + fingerprintLen},
		{"data_in", func() int { return c.receive(indication) }, payloadLen},
	}
}

func openWith(channels int) *client {
	c := open()
	c.channels = channels
	for i := 0; i < channels; i++ {
		c.bind(peerAddr(i, port))
	}
	c.permit(peerAddr(channels/2, otherPort))
	return c
}

func printBytes(channels int) {
	c := openWith(channels)
	for _, r := range rowsOf(c, channels) {
		c.place = channels / 2
		length := r.turn()
		if strings.HasSuffix(r.name, "_in") {
			from := c.from.(*net.UDPAddr)
			fmt.Printf("%s %s:%d:%s\n", r.name, hex.EncodeToString(from.IP.To4()), from.Port, hex.EncodeToString(c.room[:length]))
		} else {
			fmt.Printf("%s %s\n", r.name, hex.EncodeToString(c.wire.sent))
		}
	}
}

// Times handshakes one by one, without what the server takes of them.
func quickestHandshake() time.Duration {
	least := time.Hour
	for i := 0; i < handshakes; i++ {
		start := time.Now()
		c := open()
		spent := time.Since(start) - c.wire.served()
		if spent < least {
			least = spent
		}
		c.close()
	}
	return least
}

func printTimes(channels int) {
	handshake := quickestHandshake()
	c := openWith(channels)
	for _, r := range rowsOf(c, channels) {
		fmt.Printf("%s %.1f\n", r.name, leastOf(r.turn, r.wanted))
	}
	fmt.Printf("handshake %d\n", handshake.Nanoseconds())
}

func heap() runtime.MemStats {
	var stats runtime.MemStats
	runtime.GC()
	runtime.GC()
	runtime.ReadMemStats(&stats)
	return stats
}

// The allocations that the server makes where it answers these requests, and hands over the answers.
func allocationsOf(requests [][]byte) uint64 {
	w := newWire()
	before := heap()
	for _, request := range requests {
		w.serve(request)
	}
	return heap().Mallocs - before.Mallocs
}

func printHeap(channels int) {
	open().close() // what is made once for all clients is there
	before := heap()
	c := open()
	idle := heap()
	served := allocationsOf(c.wire.asked)
	for i := 0; i < channels; i++ {
		c.bind(peerAddr(i, port))
	}
	full := heap()
	fmt.Printf("allocations %d\n", idle.Mallocs-before.Mallocs-served)
	fmt.Printf("held_idle %d\n", idle.HeapAlloc-before.HeapAlloc)
	fmt.Printf("held %d\n", full.HeapAlloc-before.HeapAlloc)
	runtime.KeepAlive(c)
}

// The numbers behind the first word.
func numbers(count int) []int {
	found := make([]int, count)
	for i := range found {
		if len(os.Args) == count+2 {
			found[i], _ = strconv.Atoi(os.Args[i+2])
		}
		if found[i] < 1 {
			fail("a number")
		}
	}
	return found
}

func main() {
	if len(os.Args) > 1 && os.Args[1] == "stream" {
		given := numbers(3)
		stream(given[0], given[1], given[2])
		return
	}
	channels := numbers(1)[0]
	prepare()
	switch os.Args[1] {
	case "bytes":
		printBytes(channels)
	case "times":
		printTimes(channels)
	case "heap":
		printHeap(channels)
	default:
		fail("what is to be printed")
	}
}
