// SPDX-License-Identifier: Apache-2.0

package hopslintel

import (
	"errors"
	"sync"
	"time"
)

// exchange asks requests, all before any is answered, and gives the replies to them, as many as came. A connection that is
// found closed is no error if there can be another one, and if the requests may be asked again or nothing of them was sent.
func (c *Client) exchange(call limits, requests []Request) ([]Reply, error) {
	if err := c.take(call); err != nil {
		return nil, err
	}
	defer c.release()
	isNew := c.line == nil
	if isNew {
		if err := c.dialAnew(call); err != nil {
			return nil, err
		}
	}
	done := c.speak(call, requests)
	if isNew || c.dial == nil || done.isSent && !areReads(requests) || !errors.Is(done.err, ErrDisconnected) {
		return done.replies, done.err
	}
	if err := c.dialAnew(call); err != nil {
		return nil, err
	}
	done = c.speak(call, requests)
	return done.replies, done.err
}

// take waits for this call's turn to use the line. One exchange at a time: a reply to a get has no name, so nobody could
// tell that it is that of another call.
func (c *Client) take(call limits) error {
	if err := c.ended(call); err != nil {
		return err
	}
	select {
	case c.turn <- struct{}{}:
		return nil
	default:
	}
	var over <-chan time.Time
	if end := call.end(); !end.IsZero() {
		timer := time.NewTimer(time.Until(end))
		defer timer.Stop()
		over = timer.C
	}
	select {
	case c.turn <- struct{}{}:
	case <-over:
		return c.ended(call)
	case <-call.ctx.Done():
		return c.ended(call)
	case <-c.closing:
		return c.ended(call)
	}
	if err := c.ended(call); err != nil {
		c.release()
		return err
	}
	return nil
}

func (c *Client) release() {
	<-c.turn
	if c.isClosed() {
		c.dropIfFree()
	}
}

func (c *Client) isClosed() bool {
	select {
	case <-c.closing:
		return true
	default:
		return false
	}
}

// ended is the error of a call that may not go on, since the client was closed, its context has ended or its time is over.
func (c *Client) ended(call limits) error {
	if c.isClosed() {
		return &callError{cause: ErrClosed}
	}
	if err := call.err(); err != nil {
		return &callError{cause: err}
	}
	return nil
}

// dialAnew makes a new line.
func (c *Client) dialAnew(call limits) error {
	if c.dial == nil {
		return &callError{cause: errors.New("the session has ended"), isDisconnected: true}
	}
	inner, cancel := call.inner()
	defer cancel()
	c.setCut(cancel)
	stream, err := c.dial(inner)
	c.setCut(nil)
	if failure := c.ended(call); failure != nil {
		if err == nil {
			stream.Close()
		}
		return failure
	}
	if err != nil {
		return &callError{cause: err, isDisconnected: true}
	}
	c.line = newLine(stream)
	return nil
}

// speak is one exchange over the line. Whatever fails in it, the next frame can't be found, so the line is dropped. What it
// ends with is the error of a call, or the refusal of a version.
func (c *Client) speak(call limits, requests []Request) sent {
	line := c.line
	c.line = nil // also if a stream of the caller's panics
	watch := c.watch(call, line)
	done := line.speak(requests, c.maxBytes)
	if isCut := watch.end(); isCut || done.err != nil {
		line.close()
	} else {
		c.line = line
	}
	if done.err == nil {
		done.err = done.refusal
		return done
	}
	failure := &callError{cause: done.err, isInDoubt: done.isSent && !areReads(requests[len(done.replies):])}
	if ended := c.ended(call); ended != nil {
		failure.cause = errors.Unwrap(ended)
	} else {
		failure.isDisconnected = !errors.Is(done.err, ErrProtocol) && !errors.Is(done.err, ErrTooLarge)
	}
	done.err = failure
	return done
}

// watch is what cuts the line off during a call.
type watch struct {
	client *Client
	line   *line
	timed  bool
	stop   func() bool
}

// watch cuts the line off once the time of the call is over, its context has ended or the client is closed.
func (c *Client) watch(call limits, line *line) watch {
	end := call.end()
	watch := watch{client: c, line: line, timed: !end.IsZero()}
	if call.ctx.Done() != nil {
		watch.stop = afterEnd(call.ctx, line.cut)
	}
	if watch.timed {
		line.cutAt(end)
	}
	c.setCut(line.cut)
	return watch
}

// end ends that, and tells whether the line was cut off by the time or the context.
func (w watch) end() (isCut bool) {
	w.client.setCut(nil)
	isLate := w.timed && !w.line.timer.Stop()
	return w.stop != nil && !w.stop() || isLate
}

// setCut sets how Close cuts off what the call whose turn it is does, or that there is nothing to cut off.
func (c *Client) setCut(cut func()) {
	c.lock.Lock()
	c.cut = cut
	c.lock.Unlock()
	if cut != nil && c.isClosed() {
		cut()
	}
}

// cutOff cuts that off.
func (c *Client) cutOff() {
	c.lock.Lock()
	cut := c.cut
	c.lock.Unlock()
	if cut != nil {
		cut()
	}
}

// wait is a pause of a call.
func (c *Client) wait(call limits, pause time.Duration) error {
	timer := time.NewTimer(pause)
	defer timer.Stop()
	select {
	case <-timer.C:
	case <-call.ctx.Done():
	case <-c.closing:
	}
	return c.ended(call)
}

// dropIfFree closes the line after Close. If it is some call's turn, that call does so at its end.
func (c *Client) dropIfFree() (err error) {
	select {
	case c.turn <- struct{}{}:
		if c.line != nil {
			err = c.line.close()
			c.line = nil
		}
		<-c.turn
	default:
	}
	return err
}

func onlyOnce(does func()) func() {
	var once sync.Once
	return func() { once.Do(does) }
}
