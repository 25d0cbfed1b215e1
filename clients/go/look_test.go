// SPDX-License-Identifier: Apache-2.0

package hopslintel

// What is seen at a connection before something is sent.

import (
	"io"
	"net"
	"path/filepath"
	"testing"
	"time"
)

// untilSeen waits until the look at a client's connection tells something.
func untilSeen(t testing.TB, client *Client) error {
	t.Helper()
	for end := time.Now().Add(time.Minute); time.Now().Before(end); time.Sleep(time.Millisecond) {
		if err := client.line.isQuiet(); err != nil {
			return err
		}
	}
	t.Fatal("nothing came")
	return nil
}

// A change after the server has closed the connection goes over a new one, and is not in doubt: nothing of it was sent before.
func TestAClosedConnectionIsSeen(t *testing.T) {
	for _, change := range []struct {
		does  func(*Client) error
		asked []string
		reply []string
	}{
		{func(c *Client) error { return c.Remove(soon(t), "a") }, []string{removeA}, []string{framed("d")}},
		{func(c *Client) error { _, err := c.Set(soon(t), "a", empty); return err }, []string{setA}, []string{framed("s")}},
		{func(c *Client) error { _, err := c.SetIf(soon(t), "a", ExpectAbsent, []byte("{}")); return err },
			[]string{"V\x02", "C\x01a\x00{}"}, []string{framed("v\x02"), framed("s")}},
	} {
		server := answer(t, []string{found("x")}, change.reply)
		client := server.dial(t)
		_, err := client.Get(soon(t), "a")
		check(t, err)
		is(t, untilSeen(t, client), io.ErrUnexpectedEOF)
		check(t, change.does(client))
		equal(t, server.requests(), [][]string{{getA}, change.asked})
	}
}

// If there can be no other connection, the change was not sent.
func TestAClosedStreamIsSeen(t *testing.T) {
	server := answer(t, []string{leaves})
	stream, err := net.Dial("tcp", server.listener.Addr().String())
	check(t, err)
	client := NewClient(stream)
	stream.Write([]byte(framed(getA)))
	is(t, untilSeen(t, client), io.ErrUnexpectedEOF)
	err = client.Remove(soon(t), "a")
	is(t, err, ErrDisconnected, io.ErrUnexpectedEOF)
	isNot(t, err, ErrInDoubt, ErrProtocol)
}

// A connection that ends with the reply to its version has not been sent the change.
func TestAVersionThatIsTheLast(t *testing.T) {
	server := answer(t, []string{found("x"), leaves}, []string{framed("v\x02"), framed("s")})
	client := server.dial(t)
	_, err := client.Get(soon(t), "a")
	check(t, err)
	_, err = client.SetIf(soon(t), "a", ExpectAbsent, []byte("{}"))
	check(t, err)
	equal(t, server.requests(), [][]string{{getA, "V\x02"}, {"V\x02", "C\x01a\x00{}"}})
}

// What came late or early is no reply to what is asked next, and costs the connection.
func TestBytesThatNobodyAskedFor(t *testing.T) {
	next := make(chan bool)
	server := attack(t, func(stream net.Conn, number int) {
		if number == 1 { // before anything is asked
			io.WriteString(stream, found("early"))
			io.Copy(io.Discard, stream)
		}
		for {
			if _, err := readFrame(stream); err != nil {
				return // the client is gone
			}
			io.WriteString(stream, found("x"))
			if number == 0 { // and later, what nobody asked for
				<-next
				io.WriteString(stream, found("late"))
			}
		}
	})
	client := dial(t, server)
	text, err := client.Get(soon(t), "a")
	check(t, err)
	equal(t, string(text), "x")
	next <- true
	for range "12" {
		is(t, untilSeen(t, client), ErrProtocol)
		err = client.Remove(soon(t), "a")
		is(t, err, ErrProtocol)
		isNot(t, err, ErrInDoubt, ErrDisconnected)
		equal(t, client.line == nil, true)
		check(t, client.dialAnew(limitsOf(soon(t))))
	}
	text, err = client.Get(soon(t), "a")
	check(t, err)
	equal(t, string(text), "x")
}

// A restart of the store costs no call, also if that is a change.
func TestARestart(t *testing.T) {
	path := filepath.Join(t.TempDir(), "socket")
	first, _ := start(t, "--socket", path)
	client, err := DialNetwork(soon(t), "unix", path)
	check(t, err)
	defer client.Close()
	for _, wanted := range []bool{true, false} {
		stored, err := client.Set(soon(t), "a", third)
		check(t, err)
		equal(t, stored, wanted)
	}
	check(t, first.Process.Kill())
	first.Wait()
	serveAt(t, "--socket", path)
	untilSeen(t, client)
	stored, err := client.Set(soon(t), "a", third)
	check(t, err)
	equal(t, stored, true)
}
