// SPDX-License-Identifier: Apache-2.0

package hopslintel

import (
	"bufio"
	"errors"
	"fmt"
	"io"
	"sync"
	"time"
)

// line is a connection, with the version of its session, and what the server said to the versions that it refused.
type line struct {
	stream   io.ReadWriteCloser
	reader   *bufio.Reader
	look     func() error
	sending  []byte
	version  byte
	refusals map[byte]error

	// cut closes the stream, once. The timer does so when the time of a call is over.
	cut    func()
	timer  *time.Timer
	once   sync.Once
	closed error
}

func newLine(stream io.ReadWriteCloser) *line {
	l := &line{stream: stream, reader: bufio.NewReader(stream), look: looking(stream), version: 1, refusals: map[byte]error{}}
	l.cut = func() { l.close() }
	return l
}

// close closes the stream, and gives what that said when it was closed.
func (l *line) close() error {
	l.once.Do(func() { l.closed = l.stream.Close() })
	return l.closed
}

// cutAt sets the timer, which is made once and stopped after each call.
func (l *line) cutAt(end time.Time) {
	if l.timer == nil {
		l.timer = time.AfterFunc(time.Until(end), l.cut)
	} else {
		l.timer.Reset(time.Until(end))
	}
}

// sent is what became of requests: the replies to them, as many as came, the refusal of the version that they need, or why
// there is no more. Nothing of the requests was sent if isSent is false.
type sent struct {
	replies []Reply
	isSent  bool
	refusal error
	err     error
}

// speak puts the session into the version that the requests need, and asks them. If that is refused, nothing is asked.
func (l *line) speak(requests []Request, most int64) sent {
	refusal, err := l.raise(neededVersion(requests))
	if refusal != nil || err != nil {
		return sent{refusal: refusal, err: err}
	}
	return l.exchange(requests, most)
}

// exchange sends requests, all before any is answered, and reads the replies.
func (l *line) exchange(requests []Request, most int64) sent {
	if err := l.isQuiet(); err != nil {
		return sent{err: err}
	}
	l.sending = l.sending[:0]
	for _, request := range requests {
		l.sending = appendFrame(l.sending, request.payload)
	}
	size, err := l.stream.Write(l.sending)
	if cap(l.sending) > batchBytes {
		l.sending = nil // it is not kept for what comes rarely
	}
	if err != nil {
		return sent{isSent: size > 0, err: err}
	}
	done := sent{replies: make([]Reply, 0, len(requests)), isSent: true}
	for _, request := range requests {
		reply, err := readReply(l.reader, request, most)
		if err != nil {
			done.err = err
			return done
		}
		done.replies = append(done.replies, reply)
	}
	return done
}

// isQuiet looks at the connection before something is sent. One that the server has closed is found so, and what was sent by
// a server that nobody has asked, which would be taken for the reply.
func (l *line) isQuiet() error {
	if size := l.reader.Buffered(); size > 0 {
		return fmt.Errorf("%w: %d bytes came that nobody has asked for", ErrProtocol, size)
	}
	if l.look == nil {
		return nil
	}
	return l.look()
}

// raise puts the session into a version, if it is in an earlier one. A server is asked once for one that it does not have.
func (l *line) raise(version byte) (refusal, err error) {
	if l.version >= version {
		return nil, nil
	}
	if refusal, ok := l.refusals[version]; ok {
		return refusal, nil
	}
	done := l.exchange([]Request{versionRequest(version)}, 0)
	if done.err != nil {
		return nil, done.err
	}
	refusal = done.replies[0].Err
	switch {
	case refusal == nil:
		l.version = version
	case errors.Is(refusal, errBadRequest):
		l.refusals[version] = refusal
	}
	return refusal, nil
}

// Pipe joins two streams to one for NewClient, such as the standard output and input of a process "bundled run".
func Pipe(reader io.ReadCloser, writer io.WriteCloser) io.ReadWriteCloser {
	return pipe{reader, writer}
}

type pipe struct {
	io.ReadCloser
	writer io.WriteCloser
}

func (p pipe) Write(data []byte) (int, error) {
	return p.writer.Write(data)
}

func (p pipe) Close() error {
	err := p.writer.Close()
	if other := p.ReadCloser.Close(); err == nil {
		err = other
	}
	return err
}
