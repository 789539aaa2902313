package main

import (
	"net"
	"time"

	"github.com/pion/turn/v2"
)

const (
	payloadLen   = 1200
	port         = 10000
	otherPort    = 10001 // to which no channel is bound
	firstChannel = 0x4000
	// The attribute that pion puts behind each of its messages (RFC 8489, section 14.7).
	fingerprintLen = 8
)

var (
	payload = pattern(5, 1)
	server  = &net.UDPAddr{IP: net.IPv4(10, 0, 0, 2).To4(), Port: 2000}
	config  = turn.ClientConfig{TURNServerAddr: server.String(), Username: "user", Password: "pass", Realm: "realm"}
)

// A client is one of pion with its relayed address. It has no socket.
type client struct {
	turn  *turn.Client
	relay net.PacketConn
	wire  *wire
	room  [2048]byte
	from  net.Addr
	// The channel that the next turn around them all uses, of so many.
	place, channels int
}

// Goes on to another channel, as go_around of ../main.c does, and answers which was next.
func (c *client) next() int {
	place := c.place
	c.place = (place + 1031) % c.channels
	return place
}

// The first client fills in the network of the configuration, which lists the interfaces of the machine. Later ones take it.
func prepare() {
	open().close()
}

func open() *client {
	c := &client{wire: newWire()}
	config.Conn = c.wire
	var err error
	c.turn, err = turn.NewClient(&config)
	check(err, "a new client")
	check(c.turn.Listen(), "a client that listens")
	c.relay, err = c.turn.Allocate()
	check(err, "an allocation")
	return c
}

func (c *client) close() {
	c.turn.Close()
	check(c.wire.Close(), "the end of a client")
}

// A peer's address: this port of an IP address of its own.
func peerAddr(index, port int) *net.UDPAddr {
	return &net.UDPAddr{IP: net.IPv4(10, 1, byte(index>>8), byte(index)).To4(), Port: port}
}

// The first data to a peer asks for its permission and its channel, and the client sends Send indications until it is bound.
func (c *client) bind(peer net.Addr) {
	for i := 0; i < 10000; i++ {
		c.send(peer)
		if c.wire.sent[0] >= firstChannel>>8 {
			return
		}
		time.Sleep(20 * time.Microsecond)
	}
	fail("a channel")
}

// The server binds no channel to this port, so it stays with Send indications.
func (c *client) permit(peer net.Addr) {
	c.send(peer)
	time.Sleep(10 * time.Millisecond)
}

func (c *client) send(peer net.Addr) int {
	if _, err := c.relay.WriteTo(payload, peer); err != nil {
		return 0
	}
	return len(c.wire.sent)
}

// Passes in a packet, and reads the data, for which the client has a queue.
func (c *client) receive(packet []byte) int {
	if _, err := c.turn.HandleInbound(packet, server); err != nil {
		return 0
	}
	length, from, err := c.relay.ReadFrom(c.room[:])
	if err != nil {
		return 0
	}
	c.from = from
	return length
}
