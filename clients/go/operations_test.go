// SPDX-License-Identifier: Apache-2.0

package hopslintel

import (
	"bytes"
	"encoding/json"
	"errors"
	"fmt"
	"net"
	"os"
	"os/exec"
	"path/filepath"
	"strings"
	"testing"
)

func TestChanges(t *testing.T) {
	ctx, client := soon(t), dial(t, serve(t)[0])
	_, err := client.Get(ctx, "a")
	is(t, err, ErrNoDomain)
	for _, wanted := range []bool{true, false} {
		stored, err := client.Set(ctx, "a", third)
		check(t, err)
		equal(t, stored, wanted)
	}
	found, err := client.Get(ctx, "a")
	check(t, err)
	equal(t, string(found), string(third))
	appended, err := client.Append(ctx, "a", key)
	check(t, err)
	equal(t, []any{appended.Stored, *appended.Sequence}, []any{true, uint64(4)})
	appended, err = client.Append(ctx, "a", key)
	check(t, err)
	equal(t, appended, Appended{})
	_, err = client.Set(ctx, "a", third)
	is(t, err, ErrStale)
	equal(t, err.Error(), "hopslintel: refused 31 Stale 4")
	check(t, client.Remove(ctx, "a"))
	is(t, client.Remove(ctx, "a"), ErrNoDomain)
	_, err = client.Set(ctx, "a", third)
	is(t, err, ErrStale)
	stored, err := client.Set(ctx, "b", empty)
	check(t, err)
	equal(t, stored, true)
	appended, err = client.Append(ctx, "b", key)
	check(t, err)
	equal(t, appended, Appended{Stored: true})
}

func TestExpectedBundles(t *testing.T) {
	ctx, client := soon(t), dial(t, serve(t)[0])
	set := func(expected Expectation, document []byte) error {
		_, err := client.SetIf(ctx, "a", expected, document)
		return err
	}
	is(t, set(ExpectSequence(3), third), ErrNotExpected)
	check(t, set(ExpectAbsent, empty))
	err := set(ExpectAbsent, third)
	is(t, err, ErrNotExpected)
	equal(t, err.Error(), "hopslintel: refused 36 NotExpected unnumbered")
	check(t, set(ExpectUnnumbered, third))
	err = set(ExpectSequence(2), empty)
	var refused *RefusedError
	equal(t, errors.As(err, &refused), true)
	sequence, ok := refused.Found.Sequence()
	equal(t, []any{sequence, ok}, []any{uint64(3), true})
	check(t, set(ExpectSequence(3), empty))
}

func TestRefusals(t *testing.T) {
	ctx, client := soon(t), dial(t, serve(t)[0])
	for _, row := range []struct{ domain, document, wanted string }{
		{"", "{}", "1 Empty"},
		{"aB", "{}", "3 BadChar 1"},
		{"a", "[]", "12 NotObject"},
		{"a", "{", "11 NotJson"},
		{"a", `{"keys":[{},1]}`, "16 BadEntry 1"},
		{"a", `{"keys":[],"spiffe_sequence":-1}`, "14 BadSequence"},
	} {
		_, err := client.Set(ctx, row.domain, []byte(row.document))
		equal(t, fmt.Sprint(err), "hopslintel: refused "+row.wanted)
	}
	_, err := client.Append(ctx, "a", []byte(`{"use":"sig"}`))
	equal(t, fmt.Sprint(err), "hopslintel: refused 23 PassedOver")
	// What has no frame is not sent, and the session goes on.
	_, err = client.Get(ctx, strings.Repeat("a", 256))
	is(t, err, ErrNoFrame)
	equal(t, fmt.Sprint(err), "hopslintel: a request that has no frame: a name of 256 bytes")
	_, err = client.Set(ctx, "a", make([]byte, MaxPayload-2))
	is(t, err, ErrNoFrame)
	equal(t, fmt.Sprint(err), "hopslintel: a request that has no frame: it has 1049001 bytes")
	_, err = client.Do(ctx, Request{})
	is(t, err, ErrNoFrame)
	_, err = client.Get(ctx, "a")
	is(t, err, ErrNoDomain)
}

func TestRealBundles(t *testing.T) {
	ctx, client := soon(t), dial(t, serve(t)[0])
	wanted := Bundles{}
	paths, err := filepath.Glob(bundles + "/*.json")
	check(t, err)
	equal(t, len(paths), 7)
	for _, path := range paths {
		name := strings.TrimSuffix(filepath.Base(path), ".json")
		document, err := os.ReadFile(path)
		check(t, err)
		canonical, err := os.ReadFile(strings.TrimSuffix(path, "json") + "canonical")
		check(t, err)
		wanted[name] = bytes.TrimSpace(canonical)
		_, err = client.Set(ctx, name, document)
		check(t, err)
	}
	found, err := client.FetchAll(ctx)
	check(t, err)
	equal(t, found, wanted)
	var read struct {
		Domains map[string]json.RawMessage `json:"trust_domains"`
	}
	check(t, json.Unmarshal(found.Map(), &read))
	for name, text := range read.Domains {
		equal(t, string(text), string(wanted[name]))
	}
	equal(t, len(read.Domains), len(wanted))
	dump := filepath.Join(t.TempDir(), "dump")
	check(t, os.WriteFile(dump, found.Dump(), 0o600))
	loaded, err := dial(t, serve(t, "--load", dump)[0]).FetchAll(ctx)
	check(t, err)
	equal(t, loaded, wanted)
}

func TestPortForReads(t *testing.T) {
	ctx, words := soon(t), serve(t, "--read-port", "0")
	client := dial(t, words[2])
	_, err := client.Set(ctx, "a", empty)
	is(t, err, ErrShut)
	equal(t, err.Error(), "hopslintel: given up 56: this port is for reads only, or a gate of the server is shut")
	found, err := client.FetchAll(ctx)
	check(t, err)
	equal(t, found, Bundles{})
}

// Each goroutine sees its own domain's bundle, and no other's.
func TestSeveralGoroutines(t *testing.T) {
	ctx, client := soon(t), dial(t, serve(t)[0])
	var does []func() error
	for number := 0; number < 8; number++ {
		domain := fmt.Sprint("d", number)
		does = append(does, func() error {
			for sequence := 0; sequence < 100; sequence++ {
				document := fmt.Sprintf(`{"keys":[],"spiffe_sequence":%d}`, sequence)
				if _, err := client.Set(ctx, domain, []byte(document)); err != nil {
					return err
				}
				if found, err := client.Get(ctx, domain); err != nil || string(found) != document {
					return fmt.Errorf("%s, and not %s: %v", found, document, err)
				}
			}
			return nil
		})
	}
	beside(t, does...)
}

func TestPipe(t *testing.T) {
	process := exec.Command(program(t), "run")
	input, err := process.StdinPipe()
	check(t, err)
	output, err := process.StdoutPipe()
	check(t, err)
	check(t, process.Start())
	client := NewClient(Pipe(output, input))
	stored, err := client.Set(soon(t), "a", empty)
	check(t, err)
	equal(t, stored, true)
	check(t, client.Close())
	check(t, process.Wait())
	_, err = client.Get(soon(t), "a")
	is(t, err, ErrClosed)
}

// Over the Unix sockets at which the store listens: at that for reads only nothing is changed.
func TestServedUnixSockets(t *testing.T) {
	folder := t.TempDir()
	all, reads := filepath.Join(folder, "all"), filepath.Join(folder, "reads")
	words := serveAt(t, "--socket", all, "--read-socket", reads)
	equal(t, strings.Join(words, " "), all+" read-only "+reads)
	for _, at := range []struct {
		path   string
		wanted error
	}{{all, nil}, {reads, ErrShut}} {
		client, err := DialNetwork(soon(t), "unix", at.path)
		check(t, err)
		defer client.Close()
		_, err = client.Set(soon(t), "a", third)
		is(t, err, at.wanted)
		found, err := client.Get(soon(t), "a")
		check(t, err)
		equal(t, string(found), string(third))
	}
}

// Over a Unix socket, behind which something hands on to the port, also over a new connection.
func TestUnixSocket(t *testing.T) {
	path := filepath.Join(t.TempDir(), "socket")
	listener, err := net.Listen("unix", path)
	check(t, err)
	behind := &server{listener: listener, sessions: [][]string{{found("1")}, {found("2")}}, came: make(chan string, 9)}
	go behind.run()
	client, err := DialNetwork(soon(t), "unix", path)
	check(t, err)
	defer client.Close()
	for _, wanted := range []string{"1", "2"} {
		text, err := client.Get(soon(t), "a")
		check(t, err)
		equal(t, string(text), wanted)
	}
	_, err = DialNetwork(soon(t), "unix", path+"s")
	is(t, err, ErrDisconnected, os.ErrNotExist)
}
