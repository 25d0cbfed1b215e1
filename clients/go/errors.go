// SPDX-License-Identifier: Apache-2.0

package hopslintel

import (
	"errors"
	"fmt"
	"net"
)

// RefusedError tells that the store refused a request. Nothing has changed then.
type RefusedError struct {
	// Number and Name are those of docs/FORMATS.md, such as 31 and Stale. "bundled explain 31" tells more. A number that
	// this package does not know has the name Unknown.
	Number byte
	Name   string
	// Place is that of the first bad byte of a name (3), or of a bad entry of a document (16 to 20), from 0.
	Place uint32
	// Sequence is the stored one (31).
	Sequence uint64
	// Found is what is stored in place of what SetIf expected (36).
	Found Expectation
	// Detail has the bytes that came with the number.
	Detail []byte
}

func (e *RefusedError) Error() string {
	return fmt.Sprintf("hopslintel: refused %d %s%s", e.Number, e.Name, e.detail())
}

func (e *RefusedError) detail() string {
	switch {
	case len(e.Detail) == 0:
		return ""
	case e.Number == 31:
		return fmt.Sprint(" ", e.Sequence)
	case e.Number == 36:
		return fmt.Sprint(" ", e.Found)
	case e.Name == unknown:
		return fmt.Sprintf(" %x", e.Detail)
	}
	return fmt.Sprint(" ", e.Place)
}

// Is tells whether the target stands for the number of the refusal, as ErrStale does.
func (e *RefusedError) Is(target error) bool {
	return target == number(e.Number)
}

// GivenUpError tells that the store gave up. Nothing has changed then.
type GivenUpError struct {
	// Number is 22, 40, 41, 42 or 56.
	Number byte
	// Shard is the one that others held (42), that changed (41) or that is worn (40).
	Shard uint32
	// Revision is that of the shard at the last try (42), or as it was read (41).
	Revision uint64
	// Found is the revision that the shard had when it was looked at again (41).
	Found uint64
}

func (e *GivenUpError) Error() string {
	return fmt.Sprintf("hopslintel: given up %d: %s", e.Number, e.why())
}

func (e *GivenUpError) why() string {
	switch e.Number {
	case 22:
		return "the store is out of memory"
	case 40:
		return fmt.Sprintf("shard %d has used up its revisions", e.Shard)
	case 41:
		return fmt.Sprintf("shard %d was changed in each round", e.Shard)
	case 42:
		return fmt.Sprintf("others had shard %d in each try", e.Shard)
	}
	return "this port is for reads only, or a gate of the server is shut"
}

// Is tells whether the target stands for this number, as ErrHeld does.
func (e *GivenUpError) Is(target error) bool {
	return target == number(e.Number)
}

// number is what errors.Is looks for: the number of what the store refuses or gives up with.
type number byte

func (n number) Error() string {
	return fmt.Sprintf("hopslintel: the answer of number %d", byte(n))
}

// What errors.Is finds in the answers of the store.
var (
	// ErrOutOfMemory: the store had no memory for it.
	ErrOutOfMemory error = number(22)
	// ErrNoDomain: the trust domain has no bundle.
	ErrNoDomain error = number(30)
	// ErrStale: the document's sequence is lower than the stored one, or than that of a removed bundle.
	ErrStale error = number(31)
	// ErrNotExpected: another bundle is stored than SetIf expected.
	ErrNotExpected error = number(36)
	// ErrWorn: the shard has used up its revisions.
	ErrWorn error = number(40)
	// ErrMoved: others changed some shard in each round of a fetch-all.
	ErrMoved error = number(41)
	// ErrHeld: others had the shard in each try.
	ErrHeld error = number(42)
	// ErrShut: the port is for reads only, or a gate of the server is shut.
	ErrShut error = number(56)

	// errBadRequest: the server does not know such a request, or such a version.
	errBadRequest error = number(51)
)

// What errors.Is finds in the errors of calls that have no answer.
var (
	// ErrClosed: the client was closed. It is net.ErrClosed too.
	ErrClosed error = closedError{}
	// ErrDisconnected: there is no connection, or it failed or ended.
	ErrDisconnected = errors.New("the connection failed")
	// ErrProtocol: what came is not a reply to the request.
	ErrProtocol = errors.New("not a reply to the request")
	// ErrTooLarge: a fetch-all has more bytes than the client may take, which WithMaxBytes sets.
	ErrTooLarge = errors.New("a fetch-all has too many bytes")
	// ErrInDoubt: the call was a change and may have been sent, so whether it took effect is not known. A Get shows what
	// is stored now.
	ErrInDoubt = errors.New("whether the change took effect is not known")
	// ErrNoFrame: the request has no frame, as it is too long, and was not sent.
	ErrNoFrame = errors.New("a request that has no frame")
)

type closedError struct{}

func (closedError) Error() string { return "the client is closed" }

func (closedError) Unwrap() error { return net.ErrClosed }

// callError is why a call has no answer.
type callError struct {
	cause          error
	isDisconnected bool
	isInDoubt      bool
}

func (e *callError) Error() string {
	text := "hopslintel: "
	if e.isDisconnected {
		text += ErrDisconnected.Error() + ": "
	}
	text += e.cause.Error()
	if e.isInDoubt {
		text += "; " + ErrInDoubt.Error()
	}
	return text
}

func (e *callError) Unwrap() error { return e.cause }

func (e *callError) Is(target error) bool {
	return target == ErrDisconnected && e.isDisconnected || target == ErrInDoubt && e.isInDoubt
}
