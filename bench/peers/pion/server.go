package main

import (
	"crypto/hmac"
	"crypto/md5"
	"crypto/sha1"
	"encoding/binary"
)

const (
	success = 0x0100
	failure = 0x0110
	cookie  = 0x2112a442
)

const (
	methodAllocate    = 0x0003
	methodRefresh     = 0x0004
	methodChannelBind = 0x0009
)

const (
	errorCode = 0x0009
	lifetime  = 0x000d
	peer      = 0x0012
	realm     = 0x0014
	nonce     = 0x0015
	integrity = 0x0008
)

var (
	key = md5.Sum([]byte("user:realm:pass"))
	// An hour, and the addresses of ../../shared/server.c.
	lasting    = attribute(lifetime, []byte{0, 0, 0x0e, 0x10})
	allocation = append(lasting, append(attribute(0x0016, []byte{0, 1, 0xbd, 0x52, 0x2b, 0x12, 0xa4, 0x46}),
		attribute(0x0020, []byte{0, 1, 0x22, 0xfa, 0xe1, 0xba, 0xa4, 0x43})...)...)
	challenge = append(attribute(errorCode, []byte{0, 0, 4, 1}),
		append(attribute(realm, []byte("realm")), attribute(nonce, []byte("nonce"))...)...)
	forbidden = attribute(errorCode, []byte{0, 0, 4, 3})
)

// An attribute with its padding (RFC 8489, section 14).
func attribute(kind uint16, value []byte) []byte {
	at := make([]byte, 4+(len(value)+3)/4*4)
	binary.BigEndian.PutUint16(at, kind)
	binary.BigEndian.PutUint16(at[2:], uint16(len(value)))
	copy(at[4:], value)
	return at
}

// The value of an attribute of a message, or nil.
func find(message []byte, kind uint16) []byte {
	for at := message[20:]; len(at) >= 4; {
		length := int(binary.BigEndian.Uint16(at[2:]))
		if binary.BigEndian.Uint16(at) == kind {
			return at[4 : 4+length]
		}
		at = at[4+(length+3)/4*4:]
	}
	return nil
}

func reply(request []byte, class uint16, attributes []byte, isSigned bool) []byte {
	message := append([]byte{}, request[:20]...)
	length := len(attributes)
	if isSigned {
		length += 24
	}
	binary.BigEndian.PutUint16(message, binary.BigEndian.Uint16(request)|class)
	binary.BigEndian.PutUint16(message[2:], uint16(length))
	message = append(message, attributes...)
	if isSigned {
		mac := hmac.New(sha1.New, key[:])
		mac.Write(message)
		message = append(message, attribute(integrity, mac.Sum(nil))...)
	}
	return message
}

// What a server answers that grants all, but for channels to otherPort: it challenges what is not signed.
func answer(request []byte) []byte {
	if find(request, integrity) == nil {
		return reply(request, failure, challenge, false)
	}
	switch binary.BigEndian.Uint16(request) {
	case methodAllocate:
		return reply(request, success, allocation, true)
	case methodRefresh:
		return reply(request, success, lasting, true)
	case methodChannelBind:
		if binary.BigEndian.Uint16(find(request, peer)[2:])^(cookie>>16) == otherPort {
			return reply(request, failure, forbidden, true)
		}
	}
	return reply(request, success, nil, true)
}
