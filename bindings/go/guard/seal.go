package guard

import (
	"bytes"
	"compress/lzw"
	"crypto/aes"
	"crypto/cipher"
	"crypto/rand"
	"encoding/binary"
	"io"
	"sync"
	"time"

	"github.com/hashicorp/memberlist"
)

// An encrypted message of memberlist has a version byte, a nonce, and the output of AES-GCM with its tag (security.go).
// Version 0 adds padding, and the version byte isn't authenticated. If somebody changes it to 0, memberlist removes
// padding that isn't there, which crashes the program.
const (
	sealVersion  = 1
	nonceSize    = 12
	sealOverhead = 1 + nonceSize + 16
	// streamHeader is the length in bytes of the type and the length before a stream's encrypted content. Both are
	// authenticated.
	streamHeader = 5
)

// ring has the ciphers of memberlist's keys. memberlist encrypts with the first one.
type ring struct {
	source *memberlist.Keyring

	mu sync.Mutex
	// keys are the keys of the ciphers. memberlist makes a new slice for each change of the keys.
	keys    [][]byte
	ciphers []cipher.AEAD
}

// currentCiphers returns the ciphers of the current keys, or nil if gossip isn't encrypted.
func (r *ring) currentCiphers() []cipher.AEAD {
	if r.source == nil {
		return nil
	}
	keys := r.source.GetKeys()
	r.mu.Lock()
	defer r.mu.Unlock()
	if len(keys) == len(r.keys) && (len(keys) == 0 || &keys[0] == &r.keys[0]) {
		return r.ciphers
	}
	r.keys, r.ciphers = keys, nil
	for _, key := range keys {
		if block, err := aes.NewCipher(key); err == nil {
			if aead, err := cipher.NewGCM(block); err == nil {
				r.ciphers = append(r.ciphers, aead)
			}
		}
	}
	return r.ciphers
}

// open decrypts sealed into buffer. The two must not share memory.
func open(ciphers []cipher.AEAD, sealed, signed, buffer []byte) ([]byte, Reason) {
	if len(sealed) < sealOverhead || sealed[0] > sealVersion {
		return nil, Sealed
	}
	for _, aead := range ciphers {
		plain, err := aead.Open(buffer[:0], sealed[1:1+nonceSize], sealed[1+nonceSize:], signed)
		switch {
		case err == nil && sealed[0] != sealVersion:
			return nil, OldSeal
		case err == nil && len(plain) == 0:
			return nil, Empty
		case err == nil:
			return plain, none
		}
	}
	return nil, Sealed
}

// seal encrypts plain as memberlist does, and appends the result to out.
func seal(aead cipher.AEAD, out, plain, signed []byte) []byte {
	out = append(out, sealVersion)
	nonce := make([]byte, nonceSize)
	if _, err := rand.Read(nonce); err != nil {
		panic(err) // The system has no randomness, so memberlist couldn't send either.
	}
	return aead.Seal(append(out, nonce...), nonce, plain, signed)
}

// sealStream encrypts the message of a stream.
func sealStream(aead cipher.AEAD, plain []byte) []byte {
	out := make([]byte, streamHeader, streamHeader+sealOverhead+len(plain))
	out[0] = msgEncrypt
	binary.BigEndian.PutUint32(out[1:], uint32(sealOverhead+len(plain)))
	return seal(aead, out, plain, out[:streamHeader])
}

// inflater decompresses content. The guard pools inflaters, since each one needs 20 KiB.
type inflater struct {
	lzw    *lzw.Reader
	source bytes.Reader
}

var inflaters = sync.Pool{New: func() any { return &inflater{lzw: lzw.NewReader(nil, lzw.LSB, 8).(*lzw.Reader)} }}

// inflate decompresses packed into buffer, to at most max bytes. If buffer is too small, inflate calls reserve, which
// decides whether the buffer may grow by growth bytes.
func inflate(packed, buffer []byte, max int, reserve func(growth int) Reason) ([]byte, Reason) {
	inf := inflaters.Get().(*inflater)
	defer func() {
		inf.source.Reset(nil)
		inflaters.Put(inf)
	}()
	inf.source.Reset(packed)
	inf.lzw.Reset(&inf.source, lzw.LSB, 8)
	out := buffer[:0]
	for {
		if len(out) == cap(out) {
			growth := min(cap(out)+512, max+1-len(out))
			if reason := reserve(growth); reason != none {
				return nil, reason
			}
			out = append(make([]byte, 0, len(out)+growth), out...)
		}
		n, err := inf.lzw.Read(out[len(out):cap(out)])
		out = out[:len(out)+n]
		switch {
		case len(out) > max:
			return nil, Inflated
		case err == io.EOF && len(out) == 0:
			return nil, Empty
		case err == io.EOF:
			return out, none
		case err != nil:
			return nil, Compression
		}
	}
}

func min[T int | uint64 | time.Duration](a, b T) T {
	if a < b {
		return a
	}
	return b
}
