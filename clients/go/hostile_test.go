// SPDX-License-Identifier: Apache-2.0

package hopslintel

// A server that an attacker runs: each call ends in time, with an error of its own, and takes no more memory than it may.

import (
	"context"
	"errors"
	"fmt"
	"io"
	"net"
	"os"
	"strings"
	"sync/atomic"
	"testing"
	"time"
)

// most is what clients here allow a fetch-all.
const most = 8 << 20

// endless is a reply to a fetch-all that never ends: its count, and then domains in order, with texts of so many bytes.
func endless(size int) func(stream net.Conn, sent *int64) {
	return func(stream net.Conn, sent *int64) {
		text := strings.Repeat("x", size)
		reply := []byte(framed("a\xff\xff\xff\xff\xff\xff\xff\xff"))
		for number := 0; ; {
			count, err := stream.Write(reply)
			atomic.AddInt64(sent, int64(count))
			if err != nil {
				return // the client is gone
			}
			for reply = reply[:0]; len(reply) < 1<<16; number++ {
				reply = appendFrame(reply, []byte("i\x0a"+fmt.Sprintf("%010d", number)+text))
			}
		}
	}
}

// A fetch-all that does not end is ErrTooLarge once it has had its bytes, whether its domains are large or small.
func TestEndlessFetches(t *testing.T) {
	for _, size := range []int{1 << 20, 2000, 0} {
		var sent int64
		serve := endless(size)
		port := attack(t, func(stream net.Conn, _ int) {
			for {
				payload, err := readFrame(stream)
				if err != nil {
					return // the client is gone
				}
				if payload[0] == 'V' {
					io.WriteString(stream, three)
				} else {
					serve(stream, &sent)
				}
			}
		})
		client := dial(t, port, WithMaxBytes(most))
		for _, ask := range []func() error{
			func() error { _, err := client.FetchAll(soon(t)); return err },
			func() error { _, err := client.FetchAllUnless(soon(t), Digest{}); return err },
			func() error {
				return client.Pipeline(soon(t), []Request{FetchAllRequest(), FetchAllRequest()}, nil)
			},
		} {
			atomic.StoreInt64(&sent, 0)
			err := ask()
			is(t, err, ErrTooLarge)
			isNot(t, err, ErrDisconnected, ErrProtocol, ErrInDoubt)
			equal(t, err.Error(), fmt.Sprintf("hopslintel: a fetch-all has too many bytes: more than %d", most))
			// (what the two sockets hold comes to it)
			if sent := atomic.LoadInt64(&sent); sent > most+(32<<20) {
				t.Fatalf("%d bytes were sent", sent)
			}
		}
	}
}

// What a fetch-all may have is counted by the bytes that come, with 128 for each frame.
func TestMaxBytes(t *testing.T) {
	reply := all("a", "b")
	size := int64(len(reply)) + 3*128
	for _, row := range []struct {
		most   int64
		wanted error
	}{{size, nil}, {size - 1, ErrTooLarge}, {1, ErrTooLarge}, {0, nil}, {-1, nil}} {
		client := answer(t, []string{reply}, []string{found("x")}).dial(t, WithMaxBytes(row.most))
		bundles, err := client.FetchAll(soon(t))
		is(t, err, row.wanted)
		equal(t, len(bundles), map[bool]int{true: 2, false: 0}[row.wanted == nil])
		// No other reply is counted, and the client goes on.
		_, err = client.Get(soon(t), "a")
		check(t, err)
	}
}

// dripping is a server whose replies begin so, and go on byte by byte, at first by these.
func dripping(t testing.TB, begin, next string) (port string) {
	return attack(t, func(stream net.Conn, _ int) {
		if payload, err := readFrame(stream); err != nil {
			return // the client is gone
		} else if payload[0] == 'V' && begin != "" {
			io.WriteString(stream, three)
			readFrame(stream)
		}
		io.WriteString(stream, begin)
		for slowly := next + "x"; ; time.Sleep(10 * time.Millisecond) {
			if _, err := io.WriteString(stream, slowly[:1]); err != nil {
				return // the client is gone
			}
			if len(slowly) > 1 {
				slowly = slowly[1:]
			}
		}
	})
}

// The whole of a call has a time, and not each read of it.
func TestDrips(t *testing.T) {
	get := func(ctx context.Context, c *Client) error { _, err := c.Get(ctx, "a"); return err }
	fetch := func(ctx context.Context, c *Client) error { _, err := c.FetchAll(ctx); return err }
	stats := func(ctx context.Context, c *Client) error { _, err := c.Stats(ctx); return err }
	remove := func(ctx context.Context, c *Client) error { return c.Remove(ctx, "a") }
	const long = "\x00\x0f\xff\xff"
	for _, row := range []struct {
		begin, next string
		ask         func(context.Context, *Client) error
		isInDoubt   bool
	}{
		{"", long, stats, false},
		{"\x00\x0f", "\xff\xff", get, false},
		{long, "f", get, false},
		{long + "f", "", get, false},
		{framed(count(1)) + long + "i\x01a", "", fetch, false},
		{framed(count(9), item("a"), item("b")), long, fetch, false},
		{long + "m", "", stats, false},
		{long + "d", "", remove, true},
	} {
		port := dripping(t, row.begin, row.next)
		err := row.ask(soon(t), dial(t, port, WithTimeout(short)))
		is(t, err, os.ErrDeadlineExceeded)
		equal(t, errors.Is(err, ErrInDoubt), row.isInDoubt)
		isNot(t, err, context.DeadlineExceeded, ErrDisconnected)
		err = row.ask(brief(t), dial(t, port, WithTimeout(time.Hour)))
		is(t, err, context.DeadlineExceeded)
		equal(t, errors.Is(err, ErrInDoubt), row.isInDoubt)
		isNot(t, err, os.ErrDeadlineExceeded, ErrDisconnected)
	}
}

// A server that takes nothing of a long request ends with the time too.
func TestRequestsThatAreNotTaken(t *testing.T) {
	port := attack(t, func(stream net.Conn, _ int) { time.Sleep(time.Minute) })
	client := dial(t, port, WithTimeout(short))
	requests := []Request{}
	for range [64]int{} {
		requests = append(requests, SetRequest("a", make([]byte, 1<<20)))
	}
	is(t, client.Pipeline(soon(t), requests, nil), os.ErrDeadlineExceeded, ErrInDoubt)
}

// What is no reply, or none to this request, is ErrProtocol at once, and shows nothing that a terminal obeys.
func TestNonsense(t *testing.T) {
	fetch := func(c *Client) error { _, err := c.FetchAll(soon(t)); return err }
	get := func(c *Client) error { _, err := c.Get(soon(t), "a"); return err }
	stats := func(c *Client) error { _, err := c.Stats(soon(t)); return err }
	for _, row := range []struct {
		reply string
		ask   func(*Client) error
	}{
		{"\xff\xff\xff\xff", get},
		{"\x80\x00\x00\x00", fetch},
		{"\x00\x10\x01\xa9", get},
		{"HTTP/1.1 400 Bad Request\r\n\r\n", get},
		{"\x15\x03\x03\x00\x02\x02\x46", get},
		{framed("Z\x1b[2J\u202e\u009b"), get},
		{framed(count(1), "i\x01\x1b{}"), fetch},
		{framed(count(2), item("b"), item("a")), fetch},
		{framed(count(2), "a\x00\x00\x00\x00\x00\x00\x00\x01", item("a")), fetch},
		{framed(count(1)) + "\x00\x10\x01\xa9", fetch},
		{framed("f{}"), stats},
		{three + framed("m\x1b[2J=1"), stats},
	} {
		port := attack(t, func(stream net.Conn, _ int) {
			readFrame(stream)
			io.WriteString(stream, row.reply)
			io.Copy(io.Discard, stream)
		})
		err := row.ask(dial(t, port))
		is(t, err, ErrProtocol)
		isNot(t, err, ErrDisconnected, ErrInDoubt)
		for _, letter := range err.Error() {
			if letter < ' ' || letter > '~' && letter != '\ufffd' {
				t.Fatalf("%q", err.Error())
			}
		}
	}
}

// A server that never lets anybody pass is asked so often, and no more.
func TestAlwaysInTheWay(t *testing.T) {
	var asked int64
	port := attack(t, func(stream net.Conn, _ int) {
		for {
			if _, err := readFrame(stream); err != nil {
				return // the client is gone
			}
			atomic.AddInt64(&asked, 1)
			io.WriteString(stream, framed(held))
		}
	})
	is(t, dial(t, port).Remove(soon(t), "a"), ErrHeld)
	equal(t, atomic.LoadInt64(&asked), int64(11))
}
