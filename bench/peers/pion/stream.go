package main

import (
	"encoding/binary"
	"net"
	"time"

	"github.com/pion/turn/v2"
)

// As ../stream.h has them.
const (
	window    = 32
	lostAfter = 100 * time.Millisecond
)

// Sends the stream of ../stream.c through a server to a peer that echoes it. The first packets are Send indications, until pion
// has bound the channel.
func stream(serverPort, peerPort, count int) {
	sock, err := net.ListenPacket("udp4", "127.0.0.1:0")
	check(err, "a socket")
	at := &net.UDPAddr{IP: net.IPv4(127, 0, 0, 1), Port: serverPort}
	to := &net.UDPAddr{IP: net.IPv4(127, 0, 0, 1), Port: peerPort}
	c, err := turn.NewClient(&turn.ClientConfig{TURNServerAddr: at.String(), Username: "user", Password: "pass", Realm: "realm",
		Conn: sock})
	check(err, "a new client")
	check(c.Listen(), "a client that listens")
	relay, err := c.Allocate()
	check(err, "an allocation")
	run(relay, to, uint32(count))
}

// Echoes come in order. What is missing when one is not the next, or when none comes, is sent again.
func run(relay net.PacketConn, to net.Addr, count uint32) {
	out, room := make([]byte, payloadLen), make([]byte, 2048)
	for sent, echoed := uint32(0), uint32(0); echoed < count; {
		for ; sent < count && sent < echoed+window; sent++ {
			binary.BigEndian.PutUint32(out, sent)
			_, err := relay.WriteTo(out, to)
			check(err, "a packet")
		}
		if echoed%window == 0 {
			check(relay.SetReadDeadline(time.Now().Add(lostAfter)), "a deadline")
		}
		length, _, err := relay.ReadFrom(room)
		if err == nil && length == payloadLen && binary.BigEndian.Uint32(room) == echoed {
			echoed++
			continue
		}
		sent = echoed
		check(relay.SetReadDeadline(time.Now().Add(lostAfter)), "a deadline")
	}
}
