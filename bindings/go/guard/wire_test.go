package guard

import (
	"bytes"
	"compress/lzw"
	"crypto/aes"
	"crypto/cipher"
	"encoding/binary"
	"hash/crc32"

	"github.com/hashicorp/go-msgpack/codec"
)

// encode encodes a value by go-msgpack.
func encode(what any) []byte {
	var out bytes.Buffer
	if err := codec.NewEncoder(&out, &codec.MsgpackHandle{}).Encode(what); err != nil {
		panic(err)
	}
	return out.Bytes()
}

// message returns a message of this type, encoded by go-msgpack.
func message(kind byte, what any) []byte { return append([]byte{kind}, encode(what)...) }

// withChanges returns the fields of base with these changes.
func withChanges(base, changes map[string]any) map[string]any {
	merged := map[string]any{}
	for _, fields := range []map[string]any{base, changes} {
		for key, value := range fields {
			merged[key] = value
			if value == absent {
				delete(merged, key)
			}
		}
	}
	return merged
}

// absent is a field value that makes the function with leave the field out.
const absent = "without"

var versionsOf = []byte{1, 5, 2, 2, 5, 4}

// alive returns an alive message of a node with these changes of its fields.
func alive(name string, changes map[string]any) []byte {
	return message(msgAlive, withChanges(map[string]any{
		"Incarnation": 1, "Node": name, "Addr": []byte{127, 0, 0, 9}, "Port": 9, "Meta": []byte("meta"), "Vsn": versionsOf,
	}, changes))
}

// node returns an entry of a push/pull. The node is dead, so that the child doesn't probe it.
func node(name string, changes map[string]any) map[string]any {
	return withChanges(map[string]any{
		"Name": name, "Addr": []byte{127, 0, 0, 9}, "Port": 9, "Meta": []byte("meta"), "Incarnation": 1, "State": 2, "Vsn": versionsOf,
	}, changes)
}

// pushPull returns a push/pull with these nodes and a user state of this length.
func pushPull(nodes []map[string]any, length int) []byte {
	return pushPullOf(nodes, make([]byte, length))
}

// pushPullOf returns a push/pull with these nodes and this user state.
func pushPullOf(nodes []map[string]any, state []byte) []byte {
	out := message(msgPushPull, map[string]any{"Nodes": len(nodes), "UserStateLen": len(state), "Join": true})
	for _, entry := range nodes {
		out = append(out, encode(entry)...)
	}
	return append(out, state...)
}

func compound(parts ...[]byte) []byte { return encodeCompound(parts) }

// withChecksum returns a message inside the wrapper that has a CRC.
func withChecksum(body []byte) []byte {
	return append(binary.BigEndian.AppendUint32([]byte{msgChecksum}, crc32.ChecksumIEEE(body)), body...)
}

// lzwOf compresses bytes as memberlist does.
func lzwOf(body []byte) []byte {
	var out bytes.Buffer
	w := lzw.NewWriter(&out, lzw.LSB, 8)
	w.Write(body)
	w.Close()
	return out.Bytes()
}

// compressed returns a message inside the wrapper that compresses it.
func compressed(body []byte) []byte {
	return message(msgCompress, map[string]any{"Algo": 0, "Buf": lzwOf(body)})
}

func cipherOf(key []byte) cipher.AEAD {
	block, _ := aes.NewCipher(key)
	aead, _ := cipher.NewGCM(block)
	return aead
}

func sealWith(key, plain []byte) []byte       { return seal(cipherOf(key), nil, plain, nil) }
func sealStreamWith(key, plain []byte) []byte { return sealStream(cipherOf(key), plain) }

func openWith(key, sealed []byte) []byte {
	plain, _ := open([]cipher.AEAD{cipherOf(key)}, sealed, nil, make([]byte, 0, len(sealed)))
	return plain
}

func openStreamWith(key, sealed []byte) []byte {
	plain, _ := open([]cipher.AEAD{cipherOf(key)}, sealed[streamHeader:], sealed[:streamHeader], nil)
	return plain
}

// ackNumber returns the sequence number of an ack inside a packet's wrappers.
func ackNumber(plain []byte) (uint32, bool) {
	if len(plain) > checksumHeader && plain[0] == msgChecksum {
		plain = plain[checksumHeader:]
	}
	if len(plain) > 0 && plain[0] == msgCompress {
		var c struct{ Buf []byte }
		codec.NewDecoderBytes(plain[1:], &codec.MsgpackHandle{}).Decode(&c)
		plain, _ = inflate(c.Buf, make([]byte, 0, 65537), 65536, nil)
	}
	if len(plain) > 2 && plain[0] == msgCompound {
		plain = plain[2+2*int(plain[1]):]
	}
	var ack struct{ SeqNo uint32 }
	if len(plain) < 2 || plain[0] != msgAck {
		return 0, false
	}
	err := codec.NewDecoderBytes(plain[1:], &codec.MsgpackHandle{}).Decode(&ack)
	return ack.SeqNo, err == nil
}
