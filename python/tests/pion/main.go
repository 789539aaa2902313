// A TURN server of pion for the tests, over UDP and TCP, for the user `user` with the password `pass`:
//
//	pion PORT [ADDRESS [RELAY [deny]]]
//
// on 127.0.0.1, or at an address of this host, that relays there, or at another one; with `deny` it permits no peer.
package main

import (
	"fmt"
	"log"
	"net"
	"os"

	"github.com/pion/turn/v2"
)

func main() {
	host := argument(2, "127.0.0.1")
	address := net.JoinHostPort(host, os.Args[1])
	datagrams, err := net.ListenPacket("udp4", address)
	if err != nil {
		log.Fatal(err)
	}
	streams, err := net.Listen("tcp4", address)
	if err != nil {
		log.Fatal(err)
	}
	ip := argument(3, host)
	relay := &turn.RelayAddressGeneratorStatic{RelayAddress: net.ParseIP(ip), Address: ip}
	permit := func(net.Addr, net.IP) bool { return argument(4, "") != "deny" }
	key := turn.GenerateAuthKey("user", "realm", "pass")
	_, err = turn.NewServer(turn.ServerConfig{
		Realm: "realm",
		AuthHandler: func(user string, realm string, source net.Addr) ([]byte, bool) {
			return key, user == "user"
		},
		PacketConnConfigs: []turn.PacketConnConfig{{PacketConn: datagrams, RelayAddressGenerator: relay, PermissionHandler: permit}},
		ListenerConfigs:   []turn.ListenerConfig{{Listener: streams, RelayAddressGenerator: relay, PermissionHandler: permit}},
	})
	if err != nil {
		log.Fatal(err)
	}
	fmt.Println("ready")
	select {}
}

// An argument of this program, or what stands for it.
func argument(number int, otherwise string) string {
	if len(os.Args) > number {
		return os.Args[number]
	}
	return otherwise
}
