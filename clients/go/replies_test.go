// SPDX-License-Identifier: Apache-2.0

package hopslintel

import (
	"context"
	"errors"
	"fmt"
	"io"
	"testing"
)

const (
	held  = "\x2a\x00\x00\x00\x03\x00\x00\x00\x00\x00\x00\x00\x07"
	moved = "\x29\x00\x00\x00\x04\x00\x00\x00\x00\x00\x00\x00\x07\x00\x00\x00\x00\x00\x00\x00\x09"
)

// What others were in the way of is asked again, and nothing else is.
func TestRetries(t *testing.T) {
	for _, row := range []struct {
		replies []string
		wanted  error
	}{
		{[]string{framed(held), framed(moved), found("x")}, nil},
		{[]string{framed(held), framed(held), framed(held)}, ErrHeld},
		{[]string{framed(moved), framed(moved), framed(moved)}, ErrMoved},
		{[]string{framed("\x16")}, ErrOutOfMemory},
		{[]string{framed("\x28\x00\x00\x00\x09")}, ErrWorn},
		{[]string{framed("\x38")}, ErrShut},
		{[]string{framed(held), framed("\x1e")}, ErrNoDomain},
	} {
		server := answer(t, row.replies)
		text, err := server.dial(t, WithRetries(2)).Get(soon(t), "a")
		equal(t, err == nil, row.wanted == nil)
		if row.wanted == nil {
			equal(t, string(text), "x")
		} else {
			is(t, err, row.wanted)
		}
		equal(t, len(server.requests()[0]), len(row.replies))
	}
}

func TestWhatGaveUp(t *testing.T) {
	for _, row := range []struct {
		reply  string
		wanted GivenUpError
		text   string
	}{
		{"\x16", GivenUpError{Number: 22}, "22: the store is out of memory"},
		{"\x28\x00\x00\x00\x09", GivenUpError{Number: 40, Shard: 9}, "40: shard 9 has used up its revisions"},
		{moved, GivenUpError{Number: 41, Shard: 4, Revision: 7, Found: 9}, "41: shard 4 was changed in each round"},
		{held, GivenUpError{Number: 42, Shard: 3, Revision: 7}, "42: others had shard 3 in each try"},
	} {
		_, err := answer(t, []string{framed(row.reply)}).dial(t, WithRetries(0)).FetchAll(soon(t))
		var given *GivenUpError
		equal(t, errors.As(err, &given), true)
		equal(t, *given, row.wanted)
		equal(t, err.Error(), "hopslintel: given up "+row.text)
		isNot(t, err, ErrInDoubt, ErrDisconnected, ErrNoDomain)
	}
}

// A number that is not known here is a refusal, with what came with it, and the session goes on.
func TestUnknownNumbers(t *testing.T) {
	for _, row := range []struct {
		reply, text string
		detail      []byte
	}{
		{"\x00", "0 Unknown", nil},
		{"\x32", "50 Unknown", nil},
		{"\x39", "57 Unknown", nil},
		{"\x3f\x00\xff", "63 Unknown 00ff", []byte{0, 255}},
		{"\x02abc", "2 Unknown 616263", []byte("abc")},
	} {
		client := answer(t, []string{framed(row.reply), framed("d")}).dial(t)
		_, err := client.Set(soon(t), "a", empty)
		var refused *RefusedError
		equal(t, errors.As(err, &refused), true)
		equal(t, refused.Detail, row.detail)
		equal(t, err.Error(), "hopslintel: refused "+row.text)
		isNot(t, err, ErrInDoubt, ErrProtocol)
		check(t, client.Remove(soon(t), "a"))
	}
}

// A session is put into version 2 once, by the first conditional set of each connection.
func TestVersions(t *testing.T) {
	set := "C\x01a\x01\x00\x00\x00\x00\x00\x00\x00\x07" + string(empty)
	two := framed("v\x02")
	server := answer(t, []string{two, framed("s"), framed("u"), found("x")}, []string{found("y"), two, framed("s")})
	client := server.dial(t)
	setIf := func(wanted bool) {
		stored, err := client.SetIf(soon(t), "a", ExpectSequence(7), empty)
		check(t, err)
		equal(t, stored, wanted)
	}
	setIf(true)
	setIf(false)
	for _, wanted := range []string{"x", "y"} {
		text, err := client.Get(soon(t), "a")
		check(t, err)
		equal(t, string(text), wanted)
	}
	setIf(true)
	equal(t, server.requests(), [][]string{{"V\x02", set, set, getA}, {getA, "V\x02", set}})
	// If that is refused, nothing is asked.
	for reply, wanted := range map[string]error{"\x33": nil, "\x16": ErrOutOfMemory} {
		server := answer(t, []string{framed(reply)})
		_, err := server.dial(t).SetIf(soon(t), "a", ExpectAbsent, empty)
		var refused *RefusedError
		equal(t, errors.As(err, &refused), wanted == nil)
		equal(t, wanted == nil || errors.Is(err, wanted), true)
		equal(t, server.requests(), [][]string{{"V\x02"}})
	}
}

func item(name string) string { return "i" + string([]byte{byte(len(name))}) + name + "{}" }

func count(number byte) string { return "a\x00\x00\x00\x00\x00\x00\x00" + string([]byte{number}) }

// Nothing of a reply is shown that is cut off or malformed.
func TestBadReplies(t *testing.T) {
	for _, row := range []struct {
		reply  string
		wanted error
	}{
		{"\x00\x00", io.ErrUnexpectedEOF},
		{"\x00\x00\x00\x05a", io.ErrUnexpectedEOF},
		{"\x00\x00\x00\x00", ErrProtocol},
		{"\x00\x10\x01\xa9", ErrProtocol},
		{framed("s"), ErrProtocol},
		{framed("f{}"), ErrProtocol},
		{framed("Z"), ErrProtocol},
		{framed("a\x00"), ErrProtocol},
		{framed("\x1e\x00"), ErrProtocol},
		{framed("\x29\x00"), ErrProtocol},
		{framed(count(1)), io.ErrUnexpectedEOF},
		{framed(count(1), "s"), ErrProtocol},
		{framed(count(1), item("")), ErrProtocol},
		{framed(count(1), item(`a"`)), ErrProtocol},
		{framed(count(2), item("b"), item("a")), ErrProtocol},
		{framed(count(2), item("a"), item("a")), ErrProtocol},
		{framed(count(1), "i\x05a"), ErrProtocol},
	} {
		// (asked twice if it was cut off)
		client := answer(t, []string{row.reply}, []string{row.reply}).dial(t)
		all, err := client.FetchAll(soon(t))
		is(t, err, row.wanted)
		equal(t, errors.Is(err, ErrDisconnected), row.wanted == io.ErrUnexpectedEOF)
		isNot(t, err, io.EOF, ErrInDoubt, ErrClosed)
		equal(t, all, Bundles(nil))
	}
}

func TestRepliesToOtherRequests(t *testing.T) {
	ctx := soon(t)
	get := func(client *Client) error { _, err := client.Get(ctx, "a"); return err }
	set := func(client *Client) error { _, err := client.Set(ctx, "a", empty); return err }
	setIf := func(client *Client) error { _, err := client.SetIf(ctx, "a", ExpectAbsent, empty); return err }
	add := func(client *Client) error { _, err := client.Append(ctx, "a", key); return err }
	remove := func(client *Client) error { return client.Remove(ctx, "a") }
	for _, row := range []struct {
		ask       func(*Client) error
		reply     string
		isInDoubt bool
	}{
		{get, "s", false},
		{get, "d", false},
		{set, "f", true},
		{set, "s\x00", true},
		{set, "p\x00", true},
		{setIf, "v\x01", false},
		{setIf, "v\x02\x00", false},
		{setIf, "s", false},
		{add, "s", true},
		{add, "p\x02", true},
		{add, "p\x01\x00", true},
		{remove, "u", true},
		{remove, "\x1f\x00", true},
		{remove, "\x2a\x00", true},
	} {
		err := row.ask(answer(t, []string{framed(row.reply)}).dial(t))
		is(t, err, ErrProtocol)
		isNot(t, err, ErrDisconnected)
		equal(t, errors.Is(err, ErrInDoubt), row.isInDoubt)
	}
}

// A frame that nobody has asked for is not taken for a reply: the next call makes a new connection.
func TestFramesThatNobodyAskedFor(t *testing.T) {
	server := answer(t, []string{found("a") + found("b")}, []string{found("c")})
	client := server.dial(t)
	text, err := client.Get(soon(t), "a")
	check(t, err)
	equal(t, string(text), "a")
	err = client.Remove(soon(t), "a")
	is(t, err, ErrProtocol)
	isNot(t, err, ErrInDoubt)
	text, err = client.Get(soon(t), "a")
	check(t, err)
	equal(t, string(text), "c")
	equal(t, server.requests(), [][]string{{getA}, {getA}})
}

// What errors.Is looks for can't be changed, and is not another number's.
func TestNumbers(t *testing.T) {
	refused := &RefusedError{Number: 30}
	is(t, refused, ErrNoDomain)
	isNot(t, refused, ErrStale, context.Canceled, &RefusedError{Number: 31})
	equal(t, fmt.Sprint(ErrNoDomain), "hopslintel: the answer of number 30")
	is(t, &GivenUpError{Number: 42}, ErrHeld)
	isNot(t, &GivenUpError{Number: 42}, ErrMoved)
}
