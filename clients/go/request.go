// SPDX-License-Identifier: Apache-2.0

package hopslintel

import "fmt"

// Request is what is asked, made by one of the functions below. Names and documents are not judged here: the store does
// that. One that has no frame, since it is too long, is not sent: it is ErrNoFrame.
type Request struct {
	payload []byte
	err     error
}

// GetRequest asks for the bundle of a trust domain.
func GetRequest(domain string) Request {
	return named('G', domain)
}

// FetchAllRequest asks for the bundles of all trust domains.
func FetchAllRequest() Request {
	return Request{payload: []byte{'F'}}
}

// FetchAllUnlessRequest asks for the bundles of all trust domains, unless they have this digest. A server of before version 3
// of the protocol refuses it.
func FetchAllUnlessRequest(known Digest) Request {
	return Request{payload: append([]byte{'U'}, known[:]...)}
}

// SetRequest sets the bundle of a trust domain to a document.
func SetRequest(domain string, document []byte) Request {
	return named('S', domain, document)
}

// SetIfRequest sets it only if the stored bundle is the expected one.
func SetIfRequest(domain string, expected Expectation, document []byte) Request {
	return named('C', domain, expected.bytes(), document)
}

// AppendRequest appends an authority, one JWK, to the bundle of a trust domain.
func AppendRequest(domain string, jwk []byte) Request {
	return named('A', domain, jwk)
}

// RemoveRequest removes the bundle of a trust domain.
func RemoveRequest(domain string) Request {
	return named('R', domain)
}

// StatsRequest asks for what the server has counted. A server of before version 3 of the protocol refuses it.
func StatsRequest() Request {
	return Request{payload: []byte{'M'}}
}

// versionRequest sets the version of the session.
func versionRequest(version byte) Request {
	return Request{payload: []byte{'V', version}}
}

func named(letter byte, domain string, rest ...[]byte) Request {
	size := 2 + len(domain)
	for _, part := range rest {
		size += len(part)
	}
	if len(domain) > maxName {
		return Request{err: fmt.Errorf("hopslintel: %w: a name of %d bytes", ErrNoFrame, len(domain))}
	}
	if size > MaxPayload {
		return Request{err: fmt.Errorf("hopslintel: %w: it has %d bytes", ErrNoFrame, size)}
	}
	payload := append(make([]byte, 0, size), letter, byte(len(domain)))
	payload = append(payload, domain...)
	for _, part := range rest {
		payload = append(payload, part...)
	}
	return Request{payload: payload}
}

// check tells why it can't be sent, if it can't.
func (r Request) check() error {
	if r.err == nil && len(r.payload) == 0 {
		return fmt.Errorf("hopslintel: %w: it is empty", ErrNoFrame)
	}
	return r.err
}

// isRead tells whether it changes nothing, so that it may be asked again if nobody knows what became of it.
func (r Request) isRead() bool {
	return r.payload[0] == 'G' || r.payload[0] == 'M' || r.isFetch()
}

// isFetch tells whether its reply may have the bundles of all trust domains.
func (r Request) isFetch() bool {
	return r.payload[0] == 'F' || r.payload[0] == 'U'
}

func areReads(requests []Request) bool {
	for _, request := range requests {
		if !request.isRead() {
			return false
		}
	}
	return true
}

// neededVersion gives the first version of a session in which all of them can be asked.
func neededVersion(requests []Request) (version byte) {
	version = 1
	for _, request := range requests {
		switch request.payload[0] {
		case 'U', 'M':
			return 3
		case 'C':
			version = 2
		}
	}
	return version
}

// What is sent before any of it is answered: so many bytes, which a pipe or a socket takes even if nobody reads, or one
// longer request; and so many requests, of which one may be a fetch-all, as their replies are kept until the last has come.
const (
	batchBytes    = 4096
	batchRequests = 64
)

// nextBatch gives how many of the requests, of which there is one at least, are sent before any is answered. A client that
// writes more without reading would block for ever as soon as the server waits for it to read.
func nextBatch(requests []Request) int {
	size, isFull := 0, false
	for count, request := range requests {
		size += lengthBytes + len(request.payload)
		if count > 0 && size > batchBytes || count == batchRequests || isFull && request.isFetch() {
			return count
		}
		isFull = isFull || request.isFetch()
	}
	return len(requests)
}

// Expectation is what SetIf expects to be stored. The zero value is ExpectAbsent.
type Expectation struct {
	kind     byte
	sequence uint64
}

var (
	// ExpectAbsent expects that the trust domain has no bundle.
	ExpectAbsent = Expectation{}
	// ExpectUnnumbered expects a bundle without a sequence.
	ExpectUnnumbered = Expectation{kind: 2}
)

// ExpectSequence expects a bundle with this sequence.
func ExpectSequence(sequence uint64) Expectation {
	return Expectation{kind: 1, sequence: sequence}
}

// Sequence gives the sequence that is expected, if one is.
func (e Expectation) Sequence() (sequence uint64, ok bool) {
	return e.sequence, e.kind == 1
}

func (e Expectation) String() string {
	switch e.kind {
	case 0:
		return "absent"
	case 1:
		return fmt.Sprint(e.sequence)
	}
	return "unnumbered"
}

func (e Expectation) bytes() []byte {
	if e.kind == 1 {
		return append([]byte{1}, big64(e.sequence)...)
	}
	return []byte{e.kind}
}
