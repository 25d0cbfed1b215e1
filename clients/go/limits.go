// SPDX-License-Identifier: Apache-2.0

package hopslintel

import (
	"context"
	"os"
	"time"
)

// limits are what a call ends with: its context, and the moments at which the time of that and the client's own are over,
// which are zero if there is no such time.
type limits struct {
	ctx            context.Context
	ctxEnd, ownEnd time.Time
}

func limitsOf(ctx context.Context) limits {
	call := limits{ctx: ctx}
	if end, ok := ctx.Deadline(); ok {
		// By the clock that timers go by, whatever becomes of the other one.
		now := time.Now()
		call.ctxEnd = now.Add(end.Sub(now))
	}
	return call
}

// limits are those of a call that begins now.
func (c *Client) limits(ctx context.Context) limits {
	call := limitsOf(ctx)
	if c.timeout > 0 {
		call.ownEnd = time.Now().Add(c.timeout)
	}
	return call
}

// end is the moment at which the call's time is over, or zero.
func (l limits) end() time.Time {
	if l.ctxEnd.IsZero() || !l.ownEnd.IsZero() && l.ownEnd.Before(l.ctxEnd) {
		return l.ownEnd
	}
	return l.ctxEnd
}

// err tells what has ended, or whose time is over. A context's time may be over before the context says so: a timer of the
// network, which goes by the same moment, can be the first.
func (l limits) err() error {
	if err := l.ctx.Err(); err != nil {
		return err
	}
	now := time.Now()
	switch {
	case isOver(l.ctxEnd, now):
		return context.DeadlineExceeded
	case isOver(l.ownEnd, now):
		return os.ErrDeadlineExceeded
	}
	return nil
}

func isOver(end, now time.Time) bool {
	return !end.IsZero() && !now.Before(end)
}

// allow tells whether more than this time is left.
func (l limits) allow(pause time.Duration) bool {
	return !isOver(l.end(), time.Now().Add(pause))
}

// inner is a context for what the call does, which ends with it.
func (l limits) inner() (context.Context, context.CancelFunc) {
	if end := l.end(); !end.IsZero() {
		return context.WithDeadline(l.ctx, end)
	}
	return context.WithCancel(l.ctx)
}
