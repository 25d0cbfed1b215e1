// SPDX-License-Identifier: Apache-2.0

package hopslintel

import (
	"context"
	"errors"
	"io"
	"net"
	"os"
	"syscall"
	"testing"
)

// If the connection is found closed, or ends inside the reply, reads are asked once more.
func TestReadsAreAskedOnceMore(t *testing.T) {
	for _, size := range []int{0, 3, 20} {
		reply := found("0123456789012345678901234567890123456789")
		server := answer(t, []string{reply, reply[:size]}, []string{reply})
		client := server.dial(t)
		for range server.sessions {
			text, err := client.Get(soon(t), "a")
			check(t, err)
			equal(t, string(text), reply[5:])
		}
		equal(t, server.requests(), [][]string{{getA, getA}, {getA}})
		reply = framed(count(2), item("a"), item("b"))
		server = answer(t, []string{reply, reply[:size]}, []string{reply})
		client = server.dial(t)
		for range server.sessions {
			all, err := client.FetchAll(soon(t))
			check(t, err)
			equal(t, all.Names(), []string{"a", "b"})
		}
		equal(t, server.requests(), [][]string{{"F", "F"}, {"F"}})
	}
}

// Only once, and not over a connection that was made for the call.
func TestReadsAreNotAskedMoreOften(t *testing.T) {
	server := answer(t, []string{leaves}, []string{leaves}, []string{leaves}, []string{found("x")})
	client := server.dial(t)
	for _, connections := range []int{2, 3} {
		_, err := client.Get(soon(t), "a")
		is(t, err, ErrDisconnected, io.ErrUnexpectedEOF)
		isNot(t, err, ErrInDoubt, ErrClosed, io.EOF)
		equal(t, len(server.requests()), connections)
	}
	text, err := client.Get(soon(t), "a")
	check(t, err)
	equal(t, string(text), "x")
}

// A change is in doubt, and the next call makes a new connection, also if it is a change: nothing of it was sent.
func TestChangesAreSentOnce(t *testing.T) {
	for payload, change := range map[string]func(*Client) error{
		setA:               func(c *Client) error { _, err := c.Set(soon(t), "a", empty); return err },
		"A\x01a{}":         func(c *Client) error { _, err := c.Append(soon(t), "a", []byte("{}")); return err },
		removeA:            func(c *Client) error { return c.Remove(soon(t), "a") },
		"C\x01a\x00{}":     func(c *Client) error { _, err := c.SetIf(soon(t), "a", ExpectAbsent, []byte("{}")); return err },
		"S\x01a\xffnoJSON": func(c *Client) error { _, err := c.Set(soon(t), "a", []byte("\xffnoJSON")); return err },
	} {
		first, second := []string{leaves}, []string{framed("\x1e"), found("x")}
		if payload[0] == 'C' {
			first, second = []string{framed("v\x02"), leaves}, []string{framed("v\x02"), framed("\x1e"), found("x")}
		}
		server := answer(t, first, second)
		client := server.dial(t)
		err := change(client)
		is(t, err, ErrDisconnected, ErrInDoubt, io.ErrUnexpectedEOF)
		equal(t, len(server.requests()), 1)
		is(t, change(client), ErrNoDomain)
		_, err = client.Get(soon(t), "a")
		check(t, err)
		asked := server.requests()
		equal(t, asked[0], asked[1][:len(asked[0])])
		equal(t, asked[0][len(asked[0])-1], payload)
	}
}

// What a connection failed of is kept.
func TestCauses(t *testing.T) {
	_, err := Dial(soon(t), keepAddress(t))
	is(t, err, ErrDisconnected, syscall.ECONNREFUSED)
	var operation *net.OpError
	equal(t, errors.As(err, &operation), true)
	equal(t, operation.Op, "dial")
	// So it is of a server that has gone away for good.
	client := answer(t, []string{found("x"), leaves}).dial(t)
	_, err = client.Get(soon(t), "a")
	check(t, err)
	for range "12" {
		_, err = client.Get(soon(t), "a")
		is(t, err, ErrDisconnected, syscall.ECONNREFUSED)
	}
	err = client.Remove(soon(t), "a")
	is(t, err, ErrDisconnected, syscall.ECONNREFUSED)
	isNot(t, err, ErrInDoubt)
}

// A client over one stream has no other.
func TestOneStream(t *testing.T) {
	ours, theirs := net.Pipe()
	go func() {
		readFrame(theirs)
		theirs.Close()
	}()
	client := NewClient(ours)
	_, err := client.Get(soon(t), "a")
	is(t, err, ErrDisconnected, io.ErrUnexpectedEOF)
	for range "12" {
		err = client.Remove(soon(t), "a")
		is(t, err, ErrDisconnected)
		isNot(t, err, ErrInDoubt, ErrClosed)
		equal(t, err.Error(), "hopslintel: the connection failed: the session has ended")
	}
	check(t, client.Close())
	is(t, client.Remove(soon(t), "a"), ErrClosed)
}

// Nothing of a change was sent if the stream took none of it.
func TestNothingWasSent(t *testing.T) {
	ours, theirs := net.Pipe()
	theirs.Close()
	err := NewClient(ours).Remove(soon(t), "a")
	is(t, err, ErrDisconnected, io.ErrClosedPipe)
	isNot(t, err, ErrInDoubt)
}

func TestDialFunc(t *testing.T) {
	failure := errors.New("no tunnel")
	dials := 0
	client, err := DialFunc(soon(t), func(context.Context) (io.ReadWriteCloser, error) {
		if dials++; dials == 2 {
			return nil, failure
		}
		ours, theirs := net.Pipe()
		go func() {
			readFrame(theirs)
			theirs.Write([]byte(found("x")))
			theirs.Close()
		}()
		return ours, nil
	})
	check(t, err)
	text, err := client.Get(soon(t), "a")
	check(t, err)
	equal(t, string(text), "x")
	_, err = client.Get(soon(t), "a")
	is(t, err, ErrDisconnected, failure)
	_, err = client.Get(soon(t), "a")
	check(t, err)
	equal(t, dials, 3)
	_, err = DialFunc(soon(t), func(context.Context) (io.ReadWriteCloser, error) { return nil, os.ErrPermission })
	is(t, err, ErrDisconnected, os.ErrPermission)
}
