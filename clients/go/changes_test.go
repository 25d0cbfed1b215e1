// SPDX-License-Identifier: Apache-2.0

package hopslintel

import (
	"context"
	"errors"
	"io"
	"os"
	"testing"
	"time"
)

func TestChangesBetween(t *testing.T) {
	one, two := []byte("1"), []byte("2")
	for _, row := range []struct {
		before, after, added, changed Bundles
		removed                       []string
	}{
		{nil, Bundles{}, Bundles{}, Bundles{}, nil},
		{nil, Bundles{"a": one}, Bundles{"a": one}, Bundles{}, nil},
		{Bundles{"a": one}, Bundles{"a": []byte("1")}, Bundles{}, Bundles{}, nil},
		{Bundles{"a": one}, Bundles{"a": two}, Bundles{}, Bundles{"a": two}, nil},
		{Bundles{"b": one, "a": one, "c": two}, Bundles{"c": one, "d": two}, Bundles{"d": two}, Bundles{"c": one}, []string{"a", "b"}},
	} {
		equal(t, ChangesBetween(row.before, row.after), Changes{row.after, row.added, row.changed, row.removed})
	}
}

// What is there, what changes, and nothing of what stays; also after the server was restarted, and with servers of before,
// which know no digests.
func TestFollow(t *testing.T) {
	enough := errors.New("enough")
	none, two := unless(), unless("a", "b")
	for _, row := range []struct{ sessions, wanted [][]string }{
		{
			[][]string{{all(), three, same, all("a", "b"), same, leaves}, {three, same, framed(held), all("b", "c")}},
			[][]string{{"F", asksThree, none, none, two, two}, {asksThree, two, two, two}},
		},
		{
			[][]string{{all(), strange, all(), all("a", "b"), all("a", "b"), leaves}, {all("a", "b"), strange, framed(held), all("b", "c")}},
			[][]string{{"F", asksThree, "F", "F", "F", "F"}, {"F", asksThree, "F", "F"}},
		},
		{
			[][]string{{all("a", "b"), three, same, leaves}, {strange, framed(held), all("b", "c")}},
			[][]string{{"F", asksThree, two, two}, {asksThree, "F", "F"}},
		},
	} {
		server := answer(t, row.sessions...)
		var seen [][]string
		var errs []error
		err := server.dial(t, WithRetries(0)).Follow(soon(t), time.Millisecond, func(changes Changes) error {
			seen = append(seen, changes.Added.Names(), changes.Removed)
			if len(changes.Removed) > 0 {
				return enough
			}
			return nil
		}, func(err error) { errs = append(errs, err) })
		equal(t, err, enough)
		wanted := [][]string{{}, nil, {"a", "b"}, nil, {"c"}, {"a"}}
		equal(t, seen, wanted[len(wanted)-len(seen):])
		equal(t, len(errs), 1)
		is(t, errs[0], ErrHeld)
		equal(t, server.requests(), row.wanted)
	}
}

func TestFollowEnds(t *testing.T) {
	never := func(error) { t.Error("not an error of the moment") }
	nothing := func(Changes) error { return nil }
	for _, row := range []struct {
		replies []string
		onError func(error)
		wanted  error
	}{
		{[]string{framed(count(0)), leaves}, nil, io.ErrUnexpectedEOF},
		{[]string{framed(count(0)), framed(held)}, nil, ErrHeld},
		{[]string{framed(count(0)), framed("s")}, never, ErrProtocol},
		{[]string{framed(count(0)), strange, framed("\x33")}, never, nil},
	} {
		client := answer(t, row.replies, []string{leaves}).dial(t, WithRetries(0))
		err := client.Follow(soon(t), time.Millisecond, nothing, row.onError)
		if row.wanted != nil {
			is(t, err, row.wanted)
		} else {
			equal(t, err.Error(), "hopslintel: refused 51 BadRequest")
		}
	}
	// With its context, at which an error is not one of the moment.
	client := answer(t, []string{framed(count(0)), stays}).dial(t)
	is(t, client.Follow(brief(t), time.Millisecond, nothing, never), context.DeadlineExceeded)
	client = answer(t, []string{framed(count(0))}).dial(t)
	is(t, client.Follow(brief(t), time.Hour, nothing, never), context.DeadlineExceeded)
	// With Close, also in a pause.
	for _, interval := range []time.Duration{time.Hour, time.Millisecond} {
		client := dial(t, serve(t)[0])
		err := client.Follow(soon(t), interval, func(Changes) error {
			time.AfterFunc(20*time.Millisecond, func() { client.Close() })
			return nil
		}, never)
		is(t, err, ErrClosed)
	}
	// The client's own time is one of the moment.
	server := answer(t, []string{stays}, []string{framed(count(0))})
	timeouts := 0
	err := server.dial(t, WithTimeout(2*short)).Follow(soon(t), time.Millisecond,
		func(Changes) error { return io.EOF }, func(err error) { is(t, err, os.ErrDeadlineExceeded); timeouts++ })
	equal(t, err, io.EOF)
	equal(t, timeouts, 1)
}
