// SPDX-License-Identifier: Apache-2.0

package hopslintel

import (
	"strings"
	"testing"
)

// The counts of the program, before and after requests that are known.
func TestStats(t *testing.T) {
	ctx, client := soon(t), dial(t, serve(t)[0])
	before, err := client.Stats(ctx)
	check(t, err)
	for _, name := range []string{"seconds", "connections_open", "bytes_read", "domains", "marks", "requests_set", "refused_31"} {
		if _, ok := before[name]; !ok {
			t.Fatalf("no %q in %v", name, before)
		}
	}
	for _, document := range [][]byte{third, third, empty} {
		if _, err := client.Set(ctx, "a", document); err != nil {
			is(t, err, ErrStale)
		}
	}
	_, err = client.Get(ctx, "b")
	is(t, err, ErrNoDomain)
	after, err := client.Stats(ctx)
	check(t, err)
	for name, wanted := range map[string]uint64{"requests_set": 3, "changes": 2, "domains": 1, "marks": 0, "requests_get": 1,
		"refused_30": 1, "requests_version": 0, "requests_stats": 1, "connections_opened": 0} {
		equal(t, []any{name, after[name] - before[name]}, []any{name, wanted})
	}
}

func TestStatsOfServers(t *testing.T) {
	// A process by itself counts nothing, and the session is put into version 3 once.
	server := answer(t, []string{three, framed("m"), framed("ma=1"), framed("mdomains=0 Later_2=18446744073709551615")})
	client := server.dial(t)
	for _, wanted := range []map[string]uint64{{}, {"a": 1}, {"domains": 0, "Later_2": 1<<64 - 1}} {
		stats, err := client.Stats(soon(t))
		check(t, err)
		equal(t, stats, wanted)
	}
	equal(t, server.requests(), [][]string{{asksThree, "M", "M", "M"}})
	// A server of before refuses it.
	_, err := answer(t, []string{strange}).dial(t).Stats(soon(t))
	equal(t, err.Error(), "hopslintel: refused 51 BadRequest")
	// It changes nothing, so it is asked once more over a new connection.
	server = answer(t, []string{three, leaves}, []string{three, framed("ma=1")})
	stats, err := server.dial(t).Stats(soon(t))
	check(t, err)
	equal(t, stats, map[string]uint64{"a": 1})
}

func TestBadStats(t *testing.T) {
	for _, line := range []string{" ", "a", "a=", "=1", "a=1 ", " a=1", "a=1  b=2", "a=01", "a=+1", "a=-1", "a=1_0", "a=0x1", "a=1=2", "a=1\n",
		"a=18446744073709551616", "a=1 a=1", "a b=1", "\x1b[2J=1", "a\"}=1", "\u00e4=1", "a\x00=1", strings.Repeat("a", 65_535) + "=1"} {
		_, err := answer(t, []string{three, framed("m" + line)}).dial(t).Stats(soon(t))
		is(t, err, ErrProtocol)
		isNot(t, err, ErrDisconnected, ErrInDoubt)
	}
	stats, err := answer(t, []string{three, framed("m" + strings.Repeat("a", 65_534) + "=1")}).dial(t).Stats(soon(t))
	check(t, err)
	equal(t, len(stats), 1)
	_, err = answer(t, []string{framed("m")}).dial(t).Get(soon(t), "a")
	is(t, err, ErrProtocol)
}
