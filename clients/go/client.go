// SPDX-License-Identifier: Apache-2.0

package hopslintel

import (
	"context"
	"errors"
	"hash/maphash"
	"io"
	"net"
	"sync"
	"time"
)

// Client is a session with a store, which goroutines may share: one exchange comes after another. For calls beside each
// other, dial several.
//
// A call ends as soon as its context does, also while it waits for others, and after the time of WithTimeout. Its
// connection is then dropped if a reply is still owed, and the next call makes a new one.
//
// Before something is sent, the connection is looked at. If the server has closed it, there is a new one, so that its restart
// costs no call. If it is found closed later, what changes nothing is asked once more, over a new one. A change never is, since
// it may have taken effect: it is ErrInDoubt.
type Client struct {
	dial     func(context.Context) (io.ReadWriteCloser, error)
	timeout  time.Duration
	retries  int
	maxBytes int64

	// turn is full while some call has its turn: only that one may use the line.
	turn    chan struct{}
	line    *line
	closing chan struct{}
	close   func()

	// cut is how Close cuts off what the call whose turn it is does.
	lock sync.Mutex
	cut  func()
}

// Option is a setting of a client.
type Option func(*Client)

// WithTimeout sets the most time that a call may take, all in all: its retries, its wait for other goroutines, and a new
// connection. In a pipeline it is for each batch. It is 30 seconds if nothing is said, and 0 is no limit. A call that took
// longer is os.ErrDeadlineExceeded.
func WithTimeout(timeout time.Duration) Option {
	return func(c *Client) { c.timeout = timeout }
}

// WithRetries sets how often a request is asked again that others were in the way of: ErrMoved and ErrHeld, neither of
// which has changed anything. It is 10 if nothing is said. Nothing else is asked again.
func WithRetries(retries int) Option {
	return func(c *Client) { c.retries = retries }
}

// WithMaxBytes sets the most bytes that a fetch-all may have, with 128 more for each trust domain: about the memory that it
// takes. It is 1 GiB if nothing is said, and 0 is no limit. A fetch-all with more is ErrTooLarge, before they are read.
func WithMaxBytes(bytes int64) Option {
	return func(c *Client) { c.maxBytes = bytes }
}

// Dial opens a session with the server at an address such as "127.0.0.1:8443".
func Dial(ctx context.Context, address string, options ...Option) (*Client, error) {
	return DialNetwork(ctx, "tcp", address, options...)
}

// DialNetwork is as Dial, over the networks of net.Dial: with "unix" over the socket at which the store listens, or behind
// which something hands on to its port.
func DialNetwork(ctx context.Context, network, address string, options ...Option) (*Client, error) {
	var dialer net.Dialer
	return DialFunc(ctx, func(ctx context.Context) (io.ReadWriteCloser, error) {
		return dialer.DialContext(ctx, network, address)
	}, options...)
}

// DialFunc is as Dial, over the streams that the function makes: one now, and later one more whenever a connection has
// failed. Closing a stream has to end a read of it, as it does that of a net.Conn.
func DialFunc(ctx context.Context, dial func(context.Context) (io.ReadWriteCloser, error), options ...Option) (*Client, error) {
	client := newClient(options)
	client.dial = dial
	if err := client.dialAnew(client.limits(ctx)); err != nil {
		return nil, err
	}
	return client, nil
}

// NewClient is a session over one stream, such as a Pipe to a process "bundled run", and over no other.
func NewClient(stream io.ReadWriteCloser, options ...Option) *Client {
	client := newClient(options)
	client.line = newLine(stream)
	return client
}

func newClient(options []Option) *Client {
	closing := make(chan struct{})
	client := &Client{
		timeout:  30 * time.Second,
		retries:  10,
		maxBytes: 1 << 30,
		turn:     make(chan struct{}, 1),
		closing:  closing,
		close:    onlyOnce(func() { close(closing) }),
	}
	for _, option := range options {
		option(client)
	}
	return client
}

// Close ends the session. Calls of other goroutines end at once, and they and all later ones are ErrClosed. Closing again
// does nothing.
func (c *Client) Close() error {
	c.close()
	c.cutOff()
	return c.dropIfFree()
}

// Get gives the bundle of a trust domain, in canonical text. The error is ErrNoDomain if it has none.
func (c *Client) Get(ctx context.Context, domain string) ([]byte, error) {
	reply, err := c.Do(ctx, GetRequest(domain))
	return reply.Bundle, err
}

// FetchAll gives the bundles of all trust domains, as they stood at one moment.
func (c *Client) FetchAll(ctx context.Context) (Bundles, error) {
	reply, err := c.Do(ctx, FetchAllRequest())
	return reply.Bundles, err
}

// Fetched tells what a FetchAllUnless has come to.
type Fetched struct {
	// IsSame tells that the bundles have the digest that was known. They were not transferred then, and are nil here.
	IsSame bool
	// Bundles are those of all trust domains, as they stood at one moment, if they have another digest.
	Bundles Bundles
	// Digest is that of the bundles, also if it was known.
	Digest Digest
}

// FetchAllUnless is as FetchAll, unless the bundles have the digest that is known: that of Fetched, or the SHA-256 of a dump.
// If none is known, the zero value is as good as any that they do not have.
//
// It puts the session into version 3. A server of before that version sends all, and the digests are compared here.
func (c *Client) FetchAllUnless(ctx context.Context, known Digest) (Fetched, error) {
	call := c.limits(ctx)
	reply, err := c.ask(call, FetchAllUnlessRequest(known))
	if errors.Is(err, errBadRequest) {
		reply, err = c.ask(call, FetchAllRequest())
	}
	if err != nil {
		return Fetched{}, err
	}
	if reply.Same || reply.Digest == known {
		return Fetched{IsSame: true, Digest: known}, nil
	}
	return Fetched{Bundles: reply.Bundles, Digest: reply.Digest}, nil
}

// Set sets the bundle of a trust domain to a document. The answer is false if an equal bundle was there already. The
// error is ErrStale if the document's sequence is lower than the stored one.
func (c *Client) Set(ctx context.Context, domain string, document []byte) (stored bool, err error) {
	reply, err := c.Do(ctx, SetRequest(domain, document))
	return reply.Stored, err
}

// SetIf is as Set, but only if the stored bundle is the expected one: the error is ErrNotExpected if it is not. So of two
// writers who have read the same bundle only the first succeeds, if what it writes has another sequence.
func (c *Client) SetIf(ctx context.Context, domain string, expected Expectation, document []byte) (stored bool, err error) {
	reply, err := c.Do(ctx, SetIfRequest(domain, expected, document))
	return reply.Stored, err
}

// Appended tells what an append has come to.
type Appended struct {
	// Stored is false if an equal authority was there already.
	Stored bool
	// Sequence is the bundle's sequence after it, or nil if it has none, or if nothing was stored.
	Sequence *uint64
}

// Append appends an authority, one JWK, to the bundle of a trust domain, whose sequence rises by one if it has one.
func (c *Client) Append(ctx context.Context, domain string, jwk []byte) (Appended, error) {
	reply, err := c.Do(ctx, AppendRequest(domain, jwk))
	return Appended{Stored: reply.Stored, Sequence: reply.Sequence}, err
}

// Remove removes the bundle of a trust domain. The error is ErrNoDomain if it has none.
func (c *Client) Remove(ctx context.Context, domain string) error {
	_, err := c.Do(ctx, RemoveRequest(domain))
	return err
}

// Do asks a request, and gives the answer. The error is that of the reply, or why there is none.
func (c *Client) Do(ctx context.Context, request Request) (Reply, error) {
	if err := request.check(); err != nil {
		return Reply{}, err
	}
	return c.ask(c.limits(ctx), request)
}

// ask is a call, or a part of one.
func (c *Client) ask(call limits, request Request) (Reply, error) {
	for tries := 0; ; tries++ {
		replies, err := c.exchange(call, []Request{request})
		if err != nil {
			return Reply{}, err
		}
		reply := replies[0]
		pause := pauseAfter(tries)
		if !reply.isInTheWay() || tries >= c.retries || !call.allow(pause) {
			return reply, reply.Err
		}
		if err := c.wait(call, pause); err != nil {
			return Reply{}, err
		}
	}
}

// Pipeline asks many requests in few round trips, and gives each reply to the function, in their order. It ends with the
// first error of the function. Nothing is asked again because others were in the way.
//
// At most 64 requests and 4096 bytes, or one longer request, are sent before they are answered, and one fetch-all among them.
// Between two such batches others may ask the client something, also the function itself. If it fails, the replies that came
// before have been given: a reply that is missing is that of a request of which nothing is known, or that was not sent.
func (c *Client) Pipeline(ctx context.Context, requests []Request, each func(place int, reply Reply) error) error {
	for _, request := range requests {
		if err := request.check(); err != nil {
			return err
		}
	}
	for place := 0; place < len(requests); {
		batch := requests[place : place+nextBatch(requests[place:])]
		replies, failure := c.exchange(c.limits(ctx), batch)
		for number, reply := range replies {
			if err := each(place+number, reply); err != nil {
				return err
			}
		}
		if failure != nil {
			return failure
		}
		place += len(batch)
	}
	return nil
}

// pauseAfter is the time before a retry: from nothing to 1, 2, 4 and at last 64 milliseconds, at random, so that those who
// met do not meet again.
func pauseAfter(tries int) time.Duration {
	if tries > 6 {
		tries = 6
	}
	// Each hash has a seed of its own. The numbers of math/rand are the same in each process, up to Go 1.19.
	random := new(maphash.Hash).Sum64()
	return time.Duration(random % (uint64(time.Millisecond) << tries))
}
