package main

import (
	"encoding/binary"
	"net"
)

// As many bytes as a payload has, which differ.
func pattern(factor, first int) []byte {
	bytes := make([]byte, payloadLen)
	for i := range bytes {
		bytes[i] = byte(factor*i + first)
	}
	return bytes
}

// A ChannelData message with data of a peer (RFC 8656, section 12.4).
func channelData(number int) []byte {
	head := make([]byte, 4)
	binary.BigEndian.PutUint16(head, uint16(number))
	binary.BigEndian.PutUint16(head[2:], payloadLen)
	return append(head, pattern(7, 3)...)
}

// A Data indication (RFC 8656, section 11.6).
func dataIndication(from *net.UDPAddr) []byte {
	address := make([]byte, 8)
	address[1] = 1
	binary.BigEndian.PutUint16(address[2:], uint16(from.Port)^(cookie>>16))
	binary.BigEndian.PutUint32(address[4:], binary.BigEndian.Uint32(from.IP)^cookie)
	attributes := append(attribute(peer, address), attribute(0x0013, pattern(7, 3))...)
	head := make([]byte, 20)
	binary.BigEndian.PutUint16(head, 0x0017)
	binary.BigEndian.PutUint16(head[2:], uint16(len(attributes)))
	binary.BigEndian.PutUint32(head[4:], cookie)
	return append(head, attributes...)
}
