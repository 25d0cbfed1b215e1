// SPDX-License-Identifier: Apache-2.0

package hopslintel

import (
	"bytes"
	"crypto/sha256"
	"fmt"
	"os"
	"os/exec"
	"testing"
)

// Over the program: all if something changed, by a digest that is also that of the dump and that "bundled digest" writes.
func TestFetchAllUnless(t *testing.T) {
	ctx, client := soon(t), dial(t, serve(t)[0])
	fetched, err := client.FetchAllUnless(ctx, Digest{})
	check(t, err)
	none := Digest(sha256.Sum256([]byte(all())))
	equal(t, fetched, Fetched{Bundles: Bundles{}, Digest: none})
	fetched, err = client.FetchAllUnless(ctx, none)
	check(t, err)
	equal(t, fetched, Fetched{IsSame: true, Digest: none})
	wanted := Bundles{}
	for _, name := range []string{"rotation", "many", "withdrawn"} {
		document, err := os.ReadFile(bundles + "/" + name + ".json")
		check(t, err)
		canonical, err := os.ReadFile(bundles + "/" + name + ".canonical")
		check(t, err)
		wanted[name] = bytes.TrimSpace(canonical)
		_, err = client.Set(ctx, name, document)
		check(t, err)
	}
	fetched, err = client.FetchAllUnless(ctx, none)
	check(t, err)
	equal(t, fetched.Bundles, wanted)
	equal(t, fetched.Digest, Digest(sha256.Sum256(wanted.Dump())))
	digest := exec.Command(program(t), "digest")
	digest.Stdin = bytes.NewReader(wanted.Dump())
	written, err := digest.Output()
	check(t, err)
	equal(t, string(written), fetched.Digest.String()+"\n")
	reply, err := client.Do(ctx, FetchAllRequest())
	check(t, err)
	equal(t, reply, Reply{Bundles: wanted, Digest: fetched.Digest})
	again, err := client.FetchAllUnless(ctx, fetched.Digest)
	check(t, err)
	equal(t, again, Fetched{IsSame: true, Digest: fetched.Digest})
	check(t, client.Remove(ctx, "many"))
	fetched, err = client.FetchAllUnless(ctx, fetched.Digest)
	check(t, err)
	equal(t, fetched.Bundles.Names(), []string{"rotation", "withdrawn"})
}

// Digests are those of the bytes that came; those that are written here are from sha256sum.
func TestDigests(t *testing.T) {
	one := framed(count(1), "i\x01a"+string(empty))
	for _, row := range []struct{ reply, digest string }{
		{all(), "9cf4b161f3571e751912f9a78ae2015c4fb288afe59c798f5452a18d6254c893"},
		{one, "ce63fbe9ae39fbb5db7e5c7f35c4630b6e662da041ff81ee66ff807889cc20a2"},
	} {
		for _, request := range []Request{FetchAllRequest(), FetchAllUnlessRequest(Digest{1})} {
			replies := []string{three, row.reply}
			if request.payload[0] == 'F' {
				replies = replies[1:]
			}
			reply, err := answer(t, replies).dial(t).Do(soon(t), request)
			check(t, err)
			equal(t, reply.Digest.String(), row.digest)
			equal(t, fmt.Sprintf("%x", reply.Digest[:]), row.digest)
		}
	}
}

// A session is put into version 3 once, also a new one, and comes back to version 2 for nothing.
func TestVersion3(t *testing.T) {
	set := "C\x01a\x00{}"
	known := Digest(sha256.Sum256([]byte(all("a"))))
	server := answer(t, []string{three, same, framed("s"), same}, []string{three, same[:3]}, []string{three, all("b"), found("x")})
	client := server.dial(t)
	isSame := func(wanted bool) {
		t.Helper()
		fetched, err := client.FetchAllUnless(soon(t), known)
		check(t, err)
		equal(t, fetched.IsSame, wanted)
	}
	isSame(true)
	_, err := client.SetIf(soon(t), "a", ExpectAbsent, []byte("{}"))
	check(t, err)
	isSame(true)
	_, err = client.FetchAllUnless(soon(t), known)
	is(t, err, ErrDisconnected)
	isNot(t, err, ErrInDoubt)
	isSame(false)
	_, err = client.Get(soon(t), "a")
	check(t, err)
	one := unless("a")
	equal(t, server.requests(), [][]string{{asksThree, one, set, one}, {asksThree, one}, {asksThree, one, getA}})
}

// A server of before refuses version 3 once a session, and is asked for all. Any call may find one.
func TestServersOfBefore(t *testing.T) {
	known, two := Digest(sha256.Sum256([]byte(all("a")))), framed("v\x02")
	server := answer(t, []string{three, same},
		[]string{strange, all("a"), framed(held), all("a"), two, framed("s"), all("b")},
		[]string{found("x"), three, same})
	client := server.dial(t)
	for _, isSame := range []bool{true, true, true} {
		fetched, err := client.FetchAllUnless(soon(t), known)
		check(t, err)
		equal(t, fetched, Fetched{IsSame: isSame, Digest: known})
	}
	_, err := client.SetIf(soon(t), "a", ExpectAbsent, []byte("{}"))
	check(t, err)
	fetched, err := client.FetchAllUnless(soon(t), known)
	check(t, err)
	equal(t, fetched, Fetched{Bundles: Bundles{"b": []byte("{}")}, Digest: Digest(sha256.Sum256([]byte(all("b"))))})
	_, err = client.Get(soon(t), "a")
	check(t, err)
	fetched, err = client.FetchAllUnless(soon(t), known)
	check(t, err)
	equal(t, fetched.IsSame, true)
	one := unless("a")
	equal(t, server.requests(), [][]string{{asksThree, one}, {asksThree, "F", "F", "F", "V\x02", "C\x01a\x00{}", "F"}, {getA, asksThree, one}})
	// Without memory for it nothing is asked, and the version is asked for again.
	server = answer(t, []string{framed("\x16"), three, same})
	client = server.dial(t)
	_, err = client.FetchAllUnless(soon(t), known)
	is(t, err, ErrOutOfMemory)
	_, err = client.FetchAllUnless(soon(t), known)
	check(t, err)
	equal(t, server.requests(), [][]string{{asksThree, asksThree, one}})
	// In a pipeline, or asked by itself, it is a refusal.
	server = answer(t, []string{strange})
	client = server.dial(t)
	for range "12" {
		_, err = client.Do(soon(t), FetchAllUnlessRequest(known))
		equal(t, err.Error(), "hopslintel: refused 51 BadRequest")
		err = client.Pipeline(soon(t), []Request{GetRequest("a"), FetchAllUnlessRequest(known)}, nil)
		equal(t, err.Error(), "hopslintel: refused 51 BadRequest")
	}
	equal(t, server.requests(), [][]string{{asksThree}})
}

// Among other requests the version that all of them need comes first.
func TestAPipelineOfFetches(t *testing.T) {
	server := answer(t, []string{three, framed("s"), same, all("a"), found("x"), framed("u")})
	client := server.dial(t)
	var found []Reply
	requests := []Request{SetIfRequest("a", ExpectAbsent, []byte("{}")), FetchAllUnlessRequest(Digest{}), FetchAllUnlessRequest(Digest{}), GetRequest("a")}
	check(t, client.Pipeline(soon(t), requests, func(place int, reply Reply) error {
		found = append(found, reply)
		return nil
	}))
	equal(t, found, []Reply{{Stored: true}, {Same: true}, {Bundles: Bundles{"a": []byte("{}")}, Digest: sha256.Sum256([]byte(all("a")))}, {Bundle: []byte("x")}})
	_, err := client.SetIf(soon(t), "a", ExpectAbsent, []byte("{}"))
	check(t, err)
	equal(t, server.requests()[0][0], asksThree)
	equal(t, len(server.requests()[0]), 6)
}

func TestBadRepliesToFetches(t *testing.T) {
	for _, reply := range []string{framed("e\x00"), framed("s"), found("{}"), framed("v\x03"), framed(count(1), "e")} {
		_, err := answer(t, []string{three, reply}).dial(t).FetchAllUnless(soon(t), Digest{})
		is(t, err, ErrProtocol)
		isNot(t, err, ErrInDoubt, ErrDisconnected)
	}
	for _, reply := range []string{framed("v\x02"), framed("s"), same} {
		_, err := answer(t, []string{reply}).dial(t).FetchAllUnless(soon(t), Digest{})
		is(t, err, ErrProtocol)
	}
	_, err := answer(t, []string{same}).dial(t).FetchAll(soon(t))
	is(t, err, ErrProtocol)
	_, err = answer(t, []string{same}).dial(t).Get(soon(t), "a")
	is(t, err, ErrProtocol)
}
