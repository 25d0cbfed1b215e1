// SPDX-License-Identifier: Apache-2.0

package hopslintel

import (
	"errors"
	"fmt"
	"os"
	"strings"
	"testing"
	"time"
)

// Many requests over the program, with replies in their order, of which some are refusals.
func TestPipeline(t *testing.T) {
	client := dial(t, serve(t)[0])
	var requests []Request
	for number := 0; number < 500; number++ {
		name := fmt.Sprint("d", number)
		document := []byte(fmt.Sprintf(`{"keys":[],"spiffe_sequence":%d}`, number))
		requests = append(requests, SetIfRequest(name, ExpectAbsent, document), GetRequest(name), GetRequest("none"))
	}
	large := append(append([]byte{}, empty...), make([]byte, 1<<20)...)
	requests = append(requests, SetRequest("large", []byte(strings.ReplaceAll(string(large), "\x00", " "))), FetchAllRequest())
	next := 0
	check(t, client.Pipeline(soon(t), requests, func(place int, reply Reply) error {
		equal(t, place, next)
		next++
		switch {
		case place == 1500:
			equal(t, fmt.Sprint(reply.Err), "hopslintel: refused 10 TooLong")
		case place == 1501:
			equal(t, len(reply.Bundles), 500)
		case place%3 == 0:
			equal(t, reply, Reply{Stored: true})
		case place%3 == 1:
			equal(t, string(reply.Bundle), fmt.Sprintf(`{"keys":[],"spiffe_sequence":%d}`, place/3))
		case place%3 == 2:
			is(t, reply.Err, ErrNoDomain)
		}
		return nil
	}))
	equal(t, next, len(requests))
	check(t, client.Pipeline(soon(t), nil, nil))
}

// So many requests are sent before the first is answered, and no more.
func TestBatches(t *testing.T) {
	of := func(count, size int) (requests []Request) {
		for ; count > 0; count-- {
			requests = append(requests, SetRequest("a", make([]byte, size-4-3)))
		}
		return requests
	}
	for _, row := range []struct {
		requests []Request
		wanted   int
	}{
		{of(1, 10), 1},
		{of(64, 64), 64},
		{of(65, 10), 64},
		{of(65, 64), 64},
		{of(65, 65), 63},
		{of(2, 2048), 2},
		{of(2, 2049), 1},
		{of(2, 9000), 1},
		{append(of(1, 4096), of(1, 10)...), 1},
	} {
		equal(t, nextBatch(row.requests), row.wanted)
	}
}

// Of reads a batch is asked once more; else what came is given, and then the error.
func TestPipelinesThatFail(t *testing.T) {
	get, set := GetRequest("a"), SetRequest("a", empty)
	ask := func(client *Client, requests ...Request) (texts string, err error) {
		err = client.Pipeline(soon(t), requests, func(place int, reply Reply) error {
			texts += string(reply.Bundle)
			return nil
		})
		return texts, err
	}
	texts, err := ask(answer(t, []string{found("1")}, []string{found("2"), found("3")}).dial(t), get, get)
	check(t, err)
	equal(t, texts, "23")
	server := answer(t, []string{found("1")}, []string{found("4")})
	client := server.dial(t)
	texts, err = ask(client, get, set, get)
	is(t, err, ErrDisconnected, ErrInDoubt)
	equal(t, texts, "1")
	texts, err = ask(client, get)
	check(t, err)
	equal(t, texts, "4")
	// Only a read has no answer, so no change is in doubt.
	texts, err = ask(answer(t, []string{framed("s")}).dial(t), set, get)
	is(t, err, ErrDisconnected)
	isNot(t, err, ErrInDoubt)
	equal(t, texts, "")
	// Others in the way are an answer like any other.
	server = answer(t, []string{framed(held), found("x")})
	texts, err = ask(server.dial(t), get, get)
	check(t, err)
	equal(t, texts, "x")
	// What has no frame is found before anything is sent.
	server = answer(t, []string{found("x")})
	_, err = ask(server.dial(t), get, GetRequest(strings.Repeat("a", 256)))
	is(t, err, ErrNoFrame)
	equal(t, len(server.came), 0)
}

// The function may ask the client something, and end the pipeline; nothing is left behind.
func TestTheFunctionOfAPipeline(t *testing.T) {
	client := dial(t, serve(t)[0])
	requests := make([]Request, 200)
	for place := range requests {
		requests[place] = FetchAllRequest()
	}
	enough := errors.New("enough")
	err := client.Pipeline(soon(t), requests, func(place int, reply Reply) error {
		if place == 100 {
			return enough
		}
		_, err := client.Set(soon(t), fmt.Sprint("d", place), empty)
		return err
	})
	equal(t, err, enough)
	all, err := client.FetchAll(soon(t))
	check(t, err)
	equal(t, len(all), 100)
}

// The client's time is for each batch.
func TestTheTimeOfAPipeline(t *testing.T) {
	first := make([]string, batchRequests)
	requests := make([]Request, batchRequests+1)
	for place := range requests {
		requests[place] = GetRequest("a")
	}
	for place := range first {
		first[place] = found("x")
	}
	client := answer(t, append(first, stays)).dial(t, WithTimeout(time.Second))
	replies := 0
	err := client.Pipeline(soon(t), requests, func(int, Reply) error { replies++; return nil })
	is(t, err, os.ErrDeadlineExceeded)
	equal(t, replies, batchRequests)
}
