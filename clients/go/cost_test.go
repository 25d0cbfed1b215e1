// SPDX-License-Identifier: Apache-2.0

package hopslintel

// What a call costs besides its exchange.

import (
	"context"
	"io"
	"net"
	"runtime"
	"testing"
	"time"
)

// echo is a server that gives the same reply to each get of "a", and allocates nothing for it.
func echo(t testing.TB, options ...Option) *Client {
	listener, err := net.Listen("tcp", "127.0.0.1:0")
	check(t, err)
	ended := make(chan struct{})
	go func() {
		defer close(ended)
		stream, err := listener.Accept()
		if err != nil {
			return // it was closed
		}
		defer stream.Close()
		request, reply := make([]byte, len(framed(getA))), []byte(found("text"))
		for {
			if _, err := io.ReadFull(stream, request); err != nil {
				return // the client is gone
			}
			stream.Write(reply)
		}
	}()
	_, port, err := net.SplitHostPort(listener.Addr().String())
	check(t, err)
	client := dial(t, port, options...)
	t.Cleanup(func() {
		client.Close()
		listener.Close()
		<-ended
	})
	return client
}

// A get allocates its request, its reply and little besides, whatever its context is.
func TestAllocationsOfAGet(t *testing.T) {
	cancelled, cancel := context.WithCancel(context.Background())
	defer cancel()
	for _, ctx := range []context.Context{context.Background(), cancelled, soon(t)} {
		for _, timeout := range []time.Duration{0, time.Minute} {
			client := echo(t, WithTimeout(timeout))
			var failure error
			count := testing.AllocsPerRun(1000, func() {
				if text, err := client.Get(ctx, "a"); err != nil || len(text) != len("text") {
					failure = err
				}
			})
			check(t, failure)
			if count > 8 {
				t.Fatalf("%v allocations with %v", count, ctx)
			}
		}
	}
}

// besideACall is how many goroutines run beside a call.
func besideACall(t *testing.T, ctx context.Context) int {
	server := answer(t, []string{stays})
	client := server.dial(t, WithTimeout(time.Minute))
	before := runtime.NumGoroutine()
	ended := make(chan error, 1)
	go func() {
		_, err := client.Get(ctx, "a")
		ended <- err
	}()
	<-server.came
	count := runtime.NumGoroutine() - before - 1
	check(t, client.Close())
	is(t, <-ended, ErrClosed)
	return count
}

func TestNothingRunsBesideACall(t *testing.T) {
	if count := besideACall(t, context.Background()); count > 0 {
		t.Fatalf("%d goroutines beside it", count)
	}
}

func BenchmarkGet(b *testing.B) {
	client := echo(b)
	ctx := soon(b)
	b.ReportAllocs()
	for number := 0; number < b.N; number++ {
		if _, err := client.Get(ctx, "a"); err != nil {
			b.Fatal(err)
		}
	}
}
