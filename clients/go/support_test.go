// SPDX-License-Identifier: Apache-2.0

package hopslintel

// What the tests share: documents, the program, and servers that fail. The tests ask the built program, whose path is in
// BUNDLED, and servers that answer as none should. What they expect stands in docs/FORMATS.md, or was made by another
// program: each NAME.canonical in gate/bundles.

import (
	"bufio"
	"context"
	"crypto/sha256"
	"encoding/binary"
	"errors"
	"fmt"
	"io"
	"net"
	"os"
	"os/exec"
	"reflect"
	"strings"
	"sync"
	"syscall"
	"testing"
	"time"
)

const bundles = "../../gate/bundles"

var (
	empty = []byte(`{"keys":[]}`)
	third = []byte(`{"keys":[],"spiffe_sequence":3}`)
	key   = []byte(`{"use":"jwt-svid","kty":"RSA","kid":"k","n":"AQAB","e":"AQAB"}`)
)

func soon(t testing.TB) context.Context {
	ctx, cancel := context.WithTimeout(context.Background(), time.Minute)
	t.Cleanup(cancel)
	return ctx
}

func program(t testing.TB) string {
	path := os.Getenv("BUNDLED")
	if path == "" {
		t.Fatal("BUNDLED has to be the path of the program")
	}
	return path
}

// serve starts the program behind a port, and gives what stands in its line after "listening". It ends with its input, so
// that it ends with the test, however that ends.
func serve(t testing.TB, options ...string) []string {
	return serveAt(t, append([]string{"--port", "0"}, options...)...)
}

// serveAt is as serve, behind the port or the socket that the options name.
func serveAt(t testing.TB, options ...string) []string {
	_, words := start(t, options...)
	return words
}

// start is as serveAt, and gives the process too.
func start(t testing.TB, options ...string) (*exec.Cmd, []string) {
	words := append([]string{"serve", "--workers", "2", "--connections", "unlimited", "--until-eof"}, options...)
	server := exec.Command(program(t), words...)
	_, err := server.StdinPipe()
	check(t, err)
	output, err := server.StdoutPipe()
	check(t, err)
	check(t, server.Start())
	t.Cleanup(func() {
		server.Process.Kill()
		server.Wait()
	})
	line, err := bufio.NewReader(output).ReadString('\n')
	check(t, err)
	return server, strings.Fields(line)[1:]
}

func dial(t testing.TB, port string, options ...Option) *Client {
	client, err := Dial(soon(t), "127.0.0.1:"+port)
	check(t, err)
	t.Cleanup(func() { client.Close() })
	for _, option := range options { // now, so that a short time is that of calls, and not of this one
		option(client)
	}
	return client
}

func check(t testing.TB, err error) {
	t.Helper()
	if err != nil {
		t.Fatal(err)
	}
}

func equal(t testing.TB, found, wanted any) {
	t.Helper()
	if !reflect.DeepEqual(found, wanted) {
		t.Fatalf("%v, and not %v", found, wanted)
	}
}

// is wants the error to be each of these.
func is(t testing.TB, err error, wanted ...error) {
	t.Helper()
	for _, it := range wanted {
		if !errors.Is(err, it) {
			t.Fatalf("%v, and not %v", err, it)
		}
	}
}

func isNot(t testing.TB, err error, unwanted ...error) {
	t.Helper()
	for _, it := range unwanted {
		if errors.Is(err, it) {
			t.Fatalf("%v is %v", err, it)
		}
	}
}

func framed(payloads ...string) string {
	var stream []byte
	for _, payload := range payloads {
		stream = appendFrame(stream, []byte(payload))
	}
	return string(stream)
}

// readFrame reads the payload of a request.
func readFrame(stream io.Reader) ([]byte, error) {
	length := make([]byte, 4)
	if _, err := io.ReadFull(stream, length); err != nil {
		return nil, err
	}
	payload := make([]byte, binary.BigEndian.Uint32(length))
	_, err := io.ReadFull(stream, payload)
	return payload, err
}

// The payloads of some requests, and replies to them.
const (
	getA    = "G\x01a"
	removeA = "R\x01a"
	setA    = "S\x01a{\"keys\":[]}"
	stays   = "stays" // nothing comes, until the client ends the connection
	leaves  = ""      // nothing comes, and the server ends the connection
)

// What is sent and comes back of a session that is put into version 3, of bundles that are the same, and of a request that
// a server does not know.
const (
	asksThree = "V\x03"
	three     = "\x00\x00\x00\x02v\x03"
	same      = "\x00\x00\x00\x01e"
	strange   = "\x00\x00\x00\x01\x33"
)

func found(text string) string { return framed("f" + text) }

// all is the reply to a fetch-all of trust domains with these names.
func all(names ...string) string {
	payloads := []string{count(byte(len(names)))}
	for _, name := range names {
		payloads = append(payloads, item(name))
	}
	return framed(payloads...)
}

// unless is the payload that asks for all unless they are these.
func unless(names ...string) string {
	digest := sha256.Sum256([]byte(all(names...)))
	return "U" + string(digest[:])
}

// keepAddress is an address that the system gives to nobody until the test ends, and at which nobody listens but who is
// told of it.
func keepAddress(t testing.TB) string {
	kept, err := syscall.Socket(syscall.AF_INET, syscall.SOCK_STREAM, 0)
	check(t, err)
	t.Cleanup(func() { syscall.Close(kept) })
	syscall.CloseOnExec(kept)
	check(t, syscall.SetsockoptInt(kept, syscall.SOL_SOCKET, syscall.SO_REUSEADDR, 1))
	check(t, syscall.Bind(kept, &syscall.SockaddrInet4{Addr: [4]byte{127, 0, 0, 1}}))
	name, err := syscall.Getsockname(kept)
	check(t, err)
	return fmt.Sprintf("127.0.0.1:%d", name.(*syscall.SockaddrInet4).Port)
}

// server answers each request of a connection by the next reply of its list, and then ends it. It takes as many
// connections as there are lists, one after the other; nobody listens once the last one is taken.
type server struct {
	listener net.Listener
	sessions [][]string
	lock     sync.Mutex
	asked    [][]string
	came     chan string
}

func answer(t testing.TB, sessions ...[]string) *server {
	listener, err := net.Listen("tcp", keepAddress(t))
	check(t, err)
	s := &server{listener: listener, sessions: sessions, came: make(chan string, 1000)}
	ended := make(chan struct{})
	go func() {
		defer close(ended)
		s.run()
	}()
	t.Cleanup(func() {
		listener.Close()
		<-ended
	})
	return s
}

// attack serves connections, which are numbered from 0, side by side, and gives the port. They end with the test.
func attack(t testing.TB, serve func(stream net.Conn, number int)) (port string) {
	listener, err := net.Listen("tcp", "127.0.0.1:0")
	check(t, err)
	streams, ended := []net.Conn{}, make(chan struct{})
	go func() {
		defer close(ended)
		for {
			stream, err := listener.Accept()
			if err != nil {
				return // it was closed
			}
			streams = append(streams, stream)
			go func(number int) {
				defer stream.Close()
				serve(stream, number)
			}(len(streams) - 1)
		}
	}()
	t.Cleanup(func() {
		listener.Close()
		<-ended
		for _, stream := range streams {
			stream.Close()
		}
	})
	_, port, err = net.SplitHostPort(listener.Addr().String())
	check(t, err)
	return port
}

func (s *server) run() {
	for number, replies := range s.sessions {
		stream, err := s.listener.Accept()
		if err != nil {
			return // it was closed
		}
		if number == len(s.sessions)-1 {
			s.listener.Close()
		}
		s.lock.Lock()
		s.asked = append(s.asked, nil)
		s.lock.Unlock()
		s.serve(stream, replies)
	}
}

func (s *server) serve(stream net.Conn, replies []string) {
	defer stream.Close()
	for _, reply := range replies {
		payload, err := readFrame(stream)
		if err != nil {
			return // the client is gone
		}
		s.lock.Lock()
		s.asked[len(s.asked)-1] = append(s.asked[len(s.asked)-1], string(payload))
		s.lock.Unlock()
		s.came <- string(payload)
		if reply == stays {
			io.Copy(io.Discard, stream)
			return
		}
		stream.Write([]byte(reply))
	}
}

// requests are those of each connection, so far.
func (s *server) requests() [][]string {
	s.lock.Lock()
	defer s.lock.Unlock()
	return append([][]string{}, s.asked...)
}

func (s *server) dial(t testing.TB, options ...Option) *Client {
	_, port, err := net.SplitHostPort(s.listener.Addr().String())
	check(t, err)
	return dial(t, port, options...)
}

// beside runs the functions in goroutines, and waits for them.
func beside(t testing.TB, does ...func() error) {
	t.Helper()
	failed := make(chan error, len(does))
	for _, it := range does {
		go func(does func() error) { failed <- does() }(it)
	}
	for range does {
		if err := <-failed; err != nil {
			t.Error(err)
		}
	}
}
