// SPDX-License-Identifier: Apache-2.0

package hopslintel

// A context whose time is over is what a call ends with, whichever timer is first: that of the context, of the client or of the
// network.

import (
	"context"
	"errors"
	"fmt"
	"io"
	"net"
	"os"
	"syscall"
	"testing"
	"time"
)

// tardy is a context that does not say that its time is over.
type tardy struct {
	context.Context
	end time.Time
}

func (t tardy) Deadline() (time.Time, bool) { return t.end, true }

func soonTardy() context.Context {
	return tardy{context.Background(), time.Now().Add(short)}
}

// untilItsEnd dials as net does if nobody answers: its timer goes by the context's time, and its error is of its own.
func untilItsEnd(ctx context.Context) (io.ReadWriteCloser, error) {
	end, _ := ctx.Deadline()
	time.Sleep(time.Until(end))
	return nil, &net.OpError{Op: "dial", Net: "tcp", Err: os.ErrDeadlineExceeded}
}

func TestTheTimeOfATardyContext(t *testing.T) {
	_, dialing := DialFunc(soonTardy(), untilItsEnd)
	_, reading := answer(t, []string{stays}).dial(t).Get(soonTardy(), "a")
	ours, theirs := net.Pipe()
	defer theirs.Close()
	_, writing := NewClient(ours).Get(soonTardy(), "a")
	client, _, _ := holding(t, []string{stays})
	_, waiting := client.Get(soonTardy(), "a")
	for _, err := range []error{dialing, reading, writing, waiting} {
		is(t, err, context.DeadlineExceeded)
		isNot(t, err, os.ErrDeadlineExceeded, ErrDisconnected, ErrClosed)
		equal(t, err.Error(), "hopslintel: context deadline exceeded")
	}
	// The client's own time is told as that.
	_, err := DialFunc(context.Background(), untilItsEnd, WithTimeout(short))
	is(t, err, os.ErrDeadlineExceeded)
	isNot(t, err, context.DeadlineExceeded, ErrDisconnected)
	// Of both the first is.
	_, err = DialFunc(soon(t), untilItsEnd, WithTimeout(short))
	is(t, err, os.ErrDeadlineExceeded)
	_, err = DialFunc(soonTardy(), untilItsEnd, WithTimeout(time.Hour))
	is(t, err, context.DeadlineExceeded)
	// A dial that gives up before is no end of the call.
	_, err = DialFunc(soon(t), func(context.Context) (io.ReadWriteCloser, error) { return nil, syscall.ETIMEDOUT })
	is(t, err, ErrDisconnected, syscall.ETIMEDOUT)
	isNot(t, err, context.DeadlineExceeded)
}

// fullBacklog is an address at which nobody takes connections, and as many wait as may.
func fullBacklog(t testing.TB) string {
	kept, err := syscall.Socket(syscall.AF_INET, syscall.SOCK_STREAM, 0)
	check(t, err)
	t.Cleanup(func() { syscall.Close(kept) })
	syscall.CloseOnExec(kept)
	check(t, syscall.Bind(kept, &syscall.SockaddrInet4{Addr: [4]byte{127, 0, 0, 1}}))
	check(t, syscall.Listen(kept, 0))
	name, err := syscall.Getsockname(kept)
	check(t, err)
	address := fmt.Sprintf("127.0.0.1:%d", name.(*syscall.SockaddrInet4).Port)
	for number := 0; number < 16; number++ {
		stream, err := net.DialTimeout("tcp", address, 2*short)
		if err != nil {
			var timeout net.Error
			equal(t, errors.As(err, &timeout) && timeout.Timeout(), true)
			return address
		}
		t.Cleanup(func() { stream.Close() })
	}
	t.Fatal("it takes any number")
	return ""
}

// Dials that hang end with their context, or with the client's time, and are told as that, each time.
func TestDialsThatHang(t *testing.T) {
	address := fullBacklog(t)
	for number := 0; number < 60; number++ {
		ctx, cancel := context.WithTimeout(context.Background(), 10*time.Millisecond)
		_, err := Dial(ctx, address)
		is(t, err, context.DeadlineExceeded)
		isNot(t, err, os.ErrDeadlineExceeded, ErrDisconnected)
		cancel()
		_, err = Dial(context.Background(), address, WithTimeout(10*time.Millisecond))
		is(t, err, os.ErrDeadlineExceeded)
		isNot(t, err, context.DeadlineExceeded, ErrDisconnected)
	}
	ctx, cancel := context.WithCancel(context.Background())
	time.AfterFunc(short, cancel)
	_, err := Dial(ctx, address)
	is(t, err, context.Canceled)
	isNot(t, err, ErrDisconnected)
}
