// SPDX-License-Identifier: Apache-2.0

package hopslintel

import (
	"context"
	"errors"
	"io"
	"net"
	"os"
	"testing"
	"time"
)

// short is long enough for a request to be sent.
const short = 250 * time.Millisecond

// brief is a context whose time is over soon.
func brief(t testing.TB) context.Context {
	ctx, cancel := context.WithTimeout(context.Background(), short)
	t.Cleanup(cancel)
	return ctx
}

// holding is a client whose turn another call has, which ends with the client or by the function.
func holding(t testing.TB, sessions ...[]string) (client *Client, server *server, end func()) {
	server = answer(t, sessions...)
	client = server.dial(t, WithTimeout(0))
	ctx, cancel := context.WithCancel(context.Background())
	ended := make(chan struct{})
	go func() {
		defer close(ended)
		client.Get(ctx, "a")
	}()
	<-server.came
	end = func() {
		cancel()
		<-ended
	}
	t.Cleanup(end)
	return client, server, end
}

// A call that has ended before sends nothing, and the session goes on.
func TestEndedContext(t *testing.T) {
	over, cancel := context.WithCancel(context.Background())
	cancel()
	server := answer(t, []string{framed("\x1e")})
	client := server.dial(t)
	err := client.Remove(over, "a")
	is(t, err, context.Canceled)
	isNot(t, err, ErrInDoubt, ErrDisconnected, ErrClosed)
	equal(t, err.Error(), "hopslintel: context canceled")
	_, err = client.Get(soon(t), "a")
	is(t, err, ErrNoDomain)
	equal(t, server.requests(), [][]string{{getA}})
}

// A call that waits for another's exchange ends with its own context, or after the client's time.
func TestTheWaitForOthersEnds(t *testing.T) {
	client, server, _ := holding(t, []string{stays})
	start := time.Now()
	err := client.Remove(brief(t), "a")
	is(t, err, context.DeadlineExceeded)
	isNot(t, err, os.ErrDeadlineExceeded, ErrInDoubt, ErrDisconnected)
	client.timeout = short
	err = client.Remove(soon(t), "a")
	is(t, err, os.ErrDeadlineExceeded)
	isNot(t, err, context.DeadlineExceeded, ErrInDoubt, ErrDisconnected)
	equal(t, time.Since(start) < 20*time.Second, true)
	equal(t, server.requests(), [][]string{{getA}})
}

// Who cancels a call ends the connection of that call, and no other call's session: the next one makes a new connection.
func TestACancelledCallEndsNoOther(t *testing.T) {
	client, server, end := holding(t, []string{stays}, []string{found("b"), found("c"), framed("d")})
	waiting := make(chan error)
	for _, name := range []string{"b", "c"} {
		go func(name string) {
			_, err := client.Get(soon(t), name)
			waiting <- err
		}(name)
	}
	end()
	check(t, <-waiting)
	check(t, <-waiting)
	check(t, client.Remove(soon(t), "a"))
	equal(t, len(server.requests()[1]), 3)
}

// The reply that comes too late is not taken for that of the next call.
func TestALateReply(t *testing.T) {
	server := answer(t, []string{stays}, []string{found("b")})
	client := server.dial(t)
	_, err := client.Get(brief(t), "a")
	is(t, err, context.DeadlineExceeded)
	isNot(t, err, ErrInDoubt, ErrDisconnected, ErrClosed)
	var timeout net.Error
	equal(t, errors.As(err, &timeout) && timeout.Timeout(), true)
	text, err := client.Get(soon(t), "b")
	check(t, err)
	equal(t, string(text), "b")
}

// What was sent is in doubt, if it is a change. It is not sent again.
func TestTimeouts(t *testing.T) {
	cancelled, cancel := context.WithCancel(context.Background())
	defer cancel()
	for _, row := range []struct {
		ctx    context.Context
		option Option
		wanted error
	}{
		{context.Background(), WithTimeout(short), os.ErrDeadlineExceeded},
		{soon(t), WithTimeout(short), os.ErrDeadlineExceeded},
		{nil, WithTimeout(0), context.DeadlineExceeded},
		{nil, WithTimeout(time.Minute), context.DeadlineExceeded},
		{cancelled, WithTimeout(0), context.Canceled},
	} {
		server := answer(t, []string{stays}, []string{found("x")})
		client := server.dial(t, row.option)
		if row.ctx == nil {
			row.ctx = brief(t)
		}
		if row.ctx == cancelled {
			time.AfterFunc(short, cancel)
		}
		err := client.Remove(row.ctx, "a")
		is(t, err, row.wanted, ErrInDoubt)
		isNot(t, err, ErrDisconnected, ErrClosed)
		client.timeout = time.Minute
		_, err = client.Get(context.Background(), "a")
		check(t, err)
		equal(t, server.requests(), [][]string{{removeA}, {getA}})
	}
}

// A reply that drips ends with the time of the call, also a large one.
func TestDrippingReplies(t *testing.T) {
	ours, theirs := net.Pipe()
	go func() {
		readFrame(theirs)
		theirs.Write([]byte("\x00\x0f\x00\x00f"))
		for {
			if _, err := theirs.Write([]byte("x")); err != nil {
				return
			}
			time.Sleep(time.Millisecond)
		}
	}()
	_, err := NewClient(ours, WithTimeout(short)).Get(soon(t), "a")
	is(t, err, os.ErrDeadlineExceeded)
}

// A request that the server does not take ends so too.
func TestUnreadRequests(t *testing.T) {
	ours, theirs := net.Pipe()
	defer theirs.Close()
	go theirs.Read(make([]byte, 3))
	err := NewClient(ours).Remove(brief(t), "a")
	is(t, err, context.DeadlineExceeded, ErrInDoubt)
}

// The time of a call has its retries in it, and their pauses: if too little is left, the answer is that of the last try.
func TestTheTimeOfRetries(t *testing.T) {
	replies := make([]string, 100000)
	for number := range replies {
		replies[number] = framed(held)
	}
	start, answers := time.Now(), 0
	// (the time may also be over inside a try)
	for tries := 0; tries < 20 && answers == 0; tries++ {
		client := answer(t, replies).dial(t, WithRetries(len(replies)), WithTimeout(100*time.Millisecond))
		_, err := client.Get(soon(t), "a")
		if errors.Is(err, ErrHeld) {
			answers++
		} else {
			is(t, err, os.ErrDeadlineExceeded)
		}
	}
	equal(t, answers, 1)
	equal(t, time.Since(start) < 20*time.Second, true)
	ctx, cancel := context.WithCancel(context.Background())
	client := answer(t, replies).dial(t, WithRetries(len(replies)))
	time.AfterFunc(short, cancel)
	is(t, client.Remove(ctx, "a"), context.Canceled)
}

// A dial ends with its context too, with the client's time, and with Close.
func TestDialsEnd(t *testing.T) {
	never := func(ctx context.Context) (io.ReadWriteCloser, error) {
		<-ctx.Done()
		return nil, ctx.Err()
	}
	_, err := DialFunc(brief(t), never)
	is(t, err, context.DeadlineExceeded)
	_, err = DialFunc(soon(t), never, WithTimeout(short))
	is(t, err, os.ErrDeadlineExceeded)
	client := answer(t, []string{leaves}).dial(t)
	is(t, client.Remove(soon(t), "a"), ErrInDoubt)
	dialing := make(chan struct{})
	client.dial = func(ctx context.Context) (io.ReadWriteCloser, error) {
		close(dialing)
		return never(ctx)
	}
	go func() {
		<-dialing
		client.Close()
	}()
	start := time.Now()
	err = client.Remove(soon(t), "a")
	is(t, err, ErrClosed, net.ErrClosed)
	isNot(t, err, ErrInDoubt)
	equal(t, time.Since(start) < 20*time.Second, true)
}

// stuck is a stream whose read nothing ends.
type stuck struct{ net.Conn }

func (stuck) Close() error { return nil }

// Calls that wait end with Close and with their contexts even if the one whose turn it is does not.
func TestAStuckStream(t *testing.T) {
	ours, theirs := net.Pipe()
	client := NewClient(stuck{ours}, WithTimeout(0))
	ended := make(chan error, 1)
	go func() {
		_, err := client.Get(context.Background(), "a")
		ended <- err
	}()
	readFrame(theirs)
	is(t, client.Remove(brief(t), "a"), context.DeadlineExceeded)
	time.AfterFunc(short, func() { client.Close() })
	is(t, client.Remove(soon(t), "a"), ErrClosed)
	theirs.Close()
	is(t, <-ended, ErrClosed)
}

// After Close all calls are ErrClosed at once: later ones, those that wait, and the one whose turn it is.
func TestClose(t *testing.T) {
	server := answer(t, []string{stays})
	client := server.dial(t)
	ended := make(chan error)
	go func() { ended <- client.Remove(context.Background(), "a") }()
	<-server.came
	for range "123" {
		go func() {
			_, err := client.Set(context.Background(), "a", empty)
			isNot(t, err, ErrInDoubt)
			ended <- err
		}()
	}
	check(t, client.Close())
	for range "1234" {
		is(t, <-ended, ErrClosed, net.ErrClosed)
	}
	_, err := client.FetchAll(context.Background())
	is(t, err, ErrClosed)
	isNot(t, err, ErrDisconnected, ErrInDoubt)
	equal(t, err.Error(), "hopslintel: the client is closed")
	check(t, client.Close())
	equal(t, server.requests(), [][]string{{removeA}})
}

// The first call after Close is ErrClosed already, and a change that Close cut off is in doubt.
func TestCloseWhileNobodyAsks(t *testing.T) {
	client := answer(t, []string{found("x")}).dial(t)
	_, err := client.Get(soon(t), "a")
	check(t, err)
	check(t, client.Close())
	_, err = client.Get(soon(t), "a")
	is(t, err, ErrClosed)
	server := answer(t, []string{stays})
	client = server.dial(t)
	go func() {
		<-server.came
		client.Close()
	}()
	is(t, client.Remove(soon(t), "a"), ErrClosed, ErrInDoubt)
}
