// SPDX-License-Identifier: Apache-2.0

package hopslintel

import (
	"bufio"
	"crypto/sha256"
	"encoding/binary"
	"fmt"
	"math"
	"strings"
)

// Reply is the answer to a request.
type Reply struct {
	// Err is a *RefusedError or a *GivenUpError, or nil if the request was done.
	Err error
	// Stored tells of a Set, SetIf or Append that something was stored: false if an equal bundle or authority was there.
	Stored bool
	// Sequence is that of the bundle after an Append, or nil if it has none, or if nothing was stored.
	Sequence *uint64
	// Bundle is the canonical text that a Get found.
	Bundle []byte
	// Bundles are those of a FetchAll, or of a FetchAllUnless if they have another digest.
	Bundles Bundles
	// Digest is that of the bytes that these bundles came in.
	Digest Digest
	// Same tells of a FetchAllUnless that the bundles have the digest that was known.
	Same bool
	// Stats are what the server has counted.
	Stats map[string]uint64
}

// isInTheWay tells whether others were in the way, and may not be next time.
func (r Reply) isInTheWay() bool {
	given, ok := r.Err.(*GivenUpError)
	return ok && (given.Number == 41 || given.Number == 42)
}

// leastLetter is the least code of a reply that is no refusal. One of a lower code is, also if it is not known here.
const leastLetter = 64

// done has the codes of the replies that tell that it was done, by the letter of the request.
var done = map[byte]string{'S': "su", 'C': "su", 'A': "pu", 'R': "d", 'G': "f", 'F': "a", 'U': "ae", 'V': "v", 'M': "m"}

// maxStats is the most bytes of counts.
const maxStats = 65_536

// givenUp has how many bytes follow the numbers of what a store gives up with.
var givenUp = map[byte]int{22: 0, 40: 4, 41: 20, 42: 12, 56: 0}

// unknown is the name of a refusal whose number is not known here.
const unknown = "Unknown"

// refusals has the names of the other refusals, and how many bytes follow their numbers.
var refusals = map[byte]struct {
	name string
	size int
}{
	1: {"Empty", 0}, 3: {"BadChar", 4}, 10: {"TooLong", 0}, 11: {"NotJson", 0}, 12: {"NotObject", 0}, 13: {"NoKeys", 0},
	14: {"BadSequence", 0}, 15: {"BadHint", 0}, 16: {"BadEntry", 4}, 17: {"BadKey", 4}, 18: {"BadX5c", 4},
	19: {"BadKid", 4}, 20: {"KidTwice", 4}, 21: {"TooMany", 0}, 23: {"PassedOver", 0}, 30: {"NoDomain", 0},
	31: {"Stale", 8}, 32: {"KidTaken", 0}, 33: {"TooMany", 0}, 34: {"TooLong", 0}, 35: {"SequenceFull", 0},
	51: {"BadRequest", 0},
}

// readReply reads the reply to a request, which is of a certain most if it is a fetch-all. After an error the next frame can't
// be found.
func readReply(stream *bufio.Reader, request Request, most int64) (Reply, error) {
	frames := frames{stream: stream}
	if request.isFetch() {
		frames.fetch = newFetch(most)
	}
	payload, err := frames.next()
	if err != nil {
		return Reply{}, err
	}
	code, rest := payload[0], payload[1:]
	if code < leastLetter {
		refusal, ok := parseRefusal(code, rest)
		if !ok {
			return Reply{}, malformed(payload)
		}
		return Reply{Err: refusal}, nil
	}
	reply, ok := parseDone(request, code, rest)
	if !ok {
		return Reply{}, malformed(payload)
	}
	if code == 'a' {
		reply.Bundles, err = readBundles(frames, binary.BigEndian.Uint64(rest))
		copy(reply.Digest[:], frames.fetch.hash.Sum(nil))
	}
	return reply, err
}

// newFetch is before the first frame of a fetch-all.
func newFetch(most int64) *fetch {
	if most <= 0 {
		most = math.MaxInt64
	}
	return &fetch{hash: sha256.New(), most: most, left: most}
}

func malformed(payload []byte) error {
	return fmt.Errorf("%w: %.40q", ErrProtocol, payload)
}

// parseDone reads a reply that tells that the request was done.
func parseDone(request Request, code byte, rest []byte) (reply Reply, ok bool) {
	if !strings.ContainsRune(done[request.payload[0]], rune(code)) {
		return Reply{}, false
	}
	switch code {
	case 'f':
		return Reply{Bundle: rest}, true
	case 'a':
		return Reply{}, len(rest) == 8
	case 'e':
		return Reply{Same: true}, len(rest) == 0
	case 'v':
		return Reply{}, string(rest) == string(request.payload[1:])
	case 'm':
		if len(rest) > maxStats {
			return Reply{}, false
		}
		reply.Stats, ok = parseStats(string(rest))
		return reply, ok
	case 'p':
		after, ok := parseExpectation(rest)
		reply.Stored = true
		if sequence, isNumbered := after.Sequence(); isNumbered {
			reply.Sequence = &sequence
		}
		return reply, ok && after != ExpectUnnumbered
	}
	return Reply{Stored: code == 's'}, len(rest) == 0
}

// parseRefusal reads a reply that tells that nothing was changed.
func parseRefusal(code byte, rest []byte) (refusal error, ok bool) {
	if size, ok := givenUp[code]; ok {
		if len(rest) != size {
			return nil, false
		}
		return parseGivenUp(code, rest), true
	}
	refused := &RefusedError{Number: code, Name: unknown}
	if len(rest) > 0 {
		refused.Detail = rest
	}
	if code == 36 {
		refused.Name = "NotExpected"
		refused.Found, ok = parseExpectation(rest)
		return refused, ok
	}
	if known, ok := refusals[code]; ok {
		refused.Name = known.name
		switch {
		case len(rest) != known.size:
			return nil, false
		case known.size == 4:
			refused.Place = binary.BigEndian.Uint32(rest)
		case known.size == 8:
			refused.Sequence = binary.BigEndian.Uint64(rest)
		}
	}
	return refused, true
}

func parseGivenUp(code byte, rest []byte) *GivenUpError {
	given := &GivenUpError{Number: code}
	if len(rest) >= 4 {
		given.Shard = binary.BigEndian.Uint32(rest)
	}
	if len(rest) >= 12 {
		given.Revision = binary.BigEndian.Uint64(rest[4:])
	}
	if len(rest) >= 20 {
		given.Found = binary.BigEndian.Uint64(rest[12:])
	}
	return given
}

func parseExpectation(rest []byte) (Expectation, bool) {
	switch {
	case len(rest) == 9 && rest[0] == 1:
		return ExpectSequence(binary.BigEndian.Uint64(rest[1:])), true
	case len(rest) == 1 && (rest[0] == 0 || rest[0] == 2):
		return Expectation{kind: rest[0]}, true
	}
	return Expectation{}, false
}

// readBundles reads the rest of a reply to a fetch-all: a frame for each trust domain, in order of their names.
func readBundles(frames frames, count uint64) (Bundles, error) {
	bundles, last := Bundles{}, ""
	for ; count > 0; count-- {
		payload, err := frames.next()
		if err != nil {
			return nil, err
		}
		name, text, ok := parseItem(payload)
		if !ok || name <= last {
			return nil, fmt.Errorf("%w after %q", malformed(payload), last)
		}
		bundles[name], last = text, name
	}
	return bundles, nil
}

// parseItem reads the frame of one trust domain of a fetch-all.
func parseItem(payload []byte) (name string, text []byte, ok bool) {
	if len(payload) < 2 || payload[0] != 'i' || len(payload) < 2+int(payload[1]) {
		return "", nil, false
	}
	end := 2 + int(payload[1])
	name = string(payload[2:end])
	return name, payload[end:], isName(name)
}

// isName tells whether it is a trust domain's name (SPIFFE-ID, section 2.1). Those of a fetch-all are looked at, since they
// may become names of files or of members of JSON.
func isName(name string) bool {
	isBad := func(letter rune) bool {
		return !strings.ContainsRune("abcdefghijklmnopqrstuvwxyz0123456789.-_", letter)
	}
	return name != "" && strings.IndexFunc(name, isBad) < 0
}
