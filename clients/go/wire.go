// SPDX-License-Identifier: Apache-2.0

package hopslintel

import (
	"bufio"
	"encoding/binary"
	"fmt"
	"hash"
	"io"
)

// MaxPayload is the most bytes of a frame, without the four of its length.
const MaxPayload = 1_049_000

// maxName is the most bytes of a trust domain's name (SPIFFE-ID, section 2.1).
const maxName = 255

// lengthBytes is how many bytes of a frame are its length.
const lengthBytes = 4

// appendFrame appends a frame: a length of four bytes, big-endian, and a payload of that many.
func appendFrame(stream, payload []byte) []byte {
	stream = binary.BigEndian.AppendUint32(stream, uint32(len(payload)))
	return append(stream, payload...)
}

// frames are those of one reply.
type frames struct {
	stream *bufio.Reader
	// fetch is what is known of a fetch-all; nil if the reply is not to one.
	fetch *fetch
}

// fetch is the digest of what has come of a fetch-all, and how much more may.
type fetch struct {
	hash       hash.Hash
	most, left int64
}

// domainBytes is what is counted for each frame of a fetch-all besides its bytes: about what a client needs to keep it.
const domainBytes = 128

// next reads the payload of the next frame. A frame that is too long is not read, and nothing is kept ready for it.
func (f frames) next() ([]byte, error) {
	length, err := f.stream.Peek(lengthBytes)
	if err != nil {
		return nil, cutOff(err)
	}
	size := binary.BigEndian.Uint32(length)
	if size < 1 || size > MaxPayload {
		return nil, fmt.Errorf("%w: a frame of %d bytes", ErrProtocol, size)
	}
	if f.fetch != nil {
		if err := f.fetch.take(length, size); err != nil {
			return nil, err
		}
	}
	f.stream.Discard(lengthBytes) // (which are there)
	payload := make([]byte, size)
	if _, err := io.ReadFull(f.stream, payload); err != nil {
		return nil, cutOff(err)
	}
	if f.fetch != nil {
		f.fetch.hash.Write(payload)
	}
	return payload, nil
}

// take counts a frame by its length.
func (f *fetch) take(length []byte, size uint32) error {
	if f.left -= lengthBytes + int64(size) + domainBytes; f.left < 0 {
		return fmt.Errorf("%w: more than %d", ErrTooLarge, f.most)
	}
	f.hash.Write(length)
	return nil
}

// cutOff is the error of a stream that ends although bytes are owed.
func cutOff(err error) error {
	if err == io.EOF {
		return io.ErrUnexpectedEOF
	}
	return err
}

func big64(number uint64) []byte {
	return binary.BigEndian.AppendUint64(nil, number)
}
