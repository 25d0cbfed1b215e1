// SPDX-License-Identifier: Apache-2.0

package spiffe

import (
	"context"
	"crypto/ed25519"
	"errors"
	"io"
	"net"
	"os"
	"path/filepath"
	"strings"
	"sync"
	"testing"
	"time"

	"github.com/spiffe/go-spiffe/v2/bundle/spiffebundle"
	"github.com/spiffe/go-spiffe/v2/spiffeid"

	"hopslintel.example/hopslintel"
)

const often = 5 * time.Millisecond

// following is a source over the client, which fails the test if it is told of anything.
func following(t *testing.T, client *hopslintel.Client, options ...Option) *Source {
	options = append([]Option{
		WithInterval(often),
		WithOnError(func(err error) { t.Error(err) }),
		WithOnBadBundle(func(domain string, err error) { t.Error(domain, err) }),
	}, options...)
	source, err := NewSource(soon(t), client, options...)
	check(t, err)
	t.Cleanup(func() { source.Close() })
	return source
}

// Mutual TLS follows the store: who is withdrawn or removed is not trusted any more, and who comes again is.
func TestMutualTLS(t *testing.T) {
	client := serve(t)
	a, b := newAuthority(t, "a.example"), newAuthority(t, "b.example")
	set(t, client, "a.example", document(t, 1, a.x509Entry()))
	set(t, client, "b.example", document(t, 1, b.x509Entry()))
	source := following(t, client)
	check(t, shakeHands(t, source, a, b))
	for _, row := range []struct {
		change func()
		wanted string
	}{
		{func() { set(t, client, "b.example", document(t, 2)) }, "unknown authority"},
		{func() { set(t, client, "b.example", document(t, 3, b.x509Entry())) }, ""},
		{func() { check(t, client.Remove(soon(t), "b.example")) }, "no bundle of trust domain \"b.example\""},
		{func() { set(t, client, "b.example", document(t, 4, newAuthority(t, "b.example").x509Entry())) }, "unknown authority"},
	} {
		row.change()
		check(t, source.WaitUntilUpdated(soon(t)))
		err := shakeHands(t, source, a, b)
		if (err == nil) != (row.wanted == "") || err != nil && !strings.Contains(err.Error(), row.wanted) {
			t.Fatalf("%v, and not %q", err, row.wanted)
		}
	}
}

// One certificate that can't be parsed costs its domain, whatever that had before, and no other. It is told once.
func TestABadBundle(t *testing.T) {
	client := serve(t)
	a, b := newAuthority(t, "a.example"), newAuthority(t, "b.example")
	set(t, client, "a.example", document(t, 1, a.x509Entry()))
	set(t, client, "b.example", document(t, 1, b.x509Entry()))
	var lock sync.Mutex
	told := []string{}
	source := following(t, client, WithOnBadBundle(func(domain string, err error) {
		is(t, err, ErrBadBundle)
		lock.Lock()
		defer lock.Unlock()
		told = append(told, domain)
	}))
	bad := b.entry(map[string]any{"use": "x509-svid", "x5c": []string{"AQAB"}})
	set(t, client, "b.example", document(t, 2, b.x509Entry(), bad))
	check(t, source.WaitUntilUpdated(soon(t)))
	_, err := source.GetX509BundleForTrustDomain(b.domain)
	is(t, err, ErrBadBundle)
	_, err = source.GetJWTBundleForTrustDomain(b.domain)
	is(t, err, ErrBadBundle)
	check(t, shakeHands(t, source, a, a))
	is(t, shakeHands(t, source, a, b), ErrBadBundle)
	// Another bundle changes, and that of b is told no second time.
	set(t, client, "a.example", document(t, 2, a.x509Entry()))
	check(t, source.WaitUntilUpdated(soon(t)))
	set(t, client, "b.example", document(t, 3, b.x509Entry()))
	check(t, source.WaitUntilUpdated(soon(t)))
	check(t, shakeHands(t, source, a, b))
	lock.Lock()
	defer lock.Unlock()
	if strings.Join(told, " ") != "b.example" {
		t.Fatal(told)
	}
}

// Of bundles that have not changed nothing is parsed again, and what a caller does to a bundle is nobody else's matter.
func TestBundlesAreKept(t *testing.T) {
	client := serve(t)
	a := newAuthority(t, "a.example")
	set(t, client, "a.example", document(t, 1, a.x509Entry(), a.entry(map[string]any{"use": "jwt-svid", "kid": "k"})))
	source := following(t, client)
	kept := source.found.Load().entries["a.example"].bundle
	set(t, client, "b.example", document(t, 1))
	check(t, source.WaitUntilUpdated(soon(t)))
	if source.found.Load().entries["a.example"].bundle != kept {
		t.Fatal("it was parsed again")
	}
	given, err := source.GetBundleForTrustDomain(a.domain)
	check(t, err)
	given.SetX509Authorities(nil)
	found, err := source.GetX509BundleForTrustDomain(a.domain)
	check(t, err)
	if !found.HasX509Authority(a.certificate) {
		t.Fatal("the authority is gone")
	}
	tokens, err := source.GetJWTBundleForTrustDomain(a.domain)
	check(t, err)
	if key, ok := tokens.FindJWTAuthority("k"); !ok || !a.key.PublicKey.Equal(key) {
		t.Fatal(key)
	}
}

// What a store gives of a document is what go-spiffe reads in the document itself, and in a canonical text that another
// program made: but that go-spiffe takes Ed25519 keys, which the store ignores.
func TestRealBundles(t *testing.T) {
	folder := os.Getenv("BUNDLES")
	if folder == "" {
		folder = "../../../gate/bundles"
	}
	paths, err := filepath.Glob(folder + "/*.json")
	check(t, err)
	if len(paths) != 7 {
		t.Fatal(paths)
	}
	client := serve(t)
	for _, path := range paths {
		text, err := os.ReadFile(path)
		check(t, err)
		set(t, client, strings.TrimSuffix(filepath.Base(path), ".json"), text)
	}
	source := following(t, client)
	for _, path := range paths {
		name := strings.TrimSuffix(filepath.Base(path), ".json")
		domain := spiffeid.RequireTrustDomainFromString(name)
		found, err := source.GetBundleForTrustDomain(domain)
		check(t, err)
		canonical, err := spiffebundle.Load(domain, strings.TrimSuffix(path, "json")+"canonical")
		check(t, err)
		wanted, err := spiffebundle.Load(domain, path)
		check(t, err)
		dropped := 0
		for kid, key := range wanted.JWTAuthorities() {
			if _, ok := key.(ed25519.PublicKey); ok {
				wanted.RemoveJWTAuthority(kid)
				dropped++
			}
		}
		if (dropped > 0) != (name == "with-unknown") {
			t.Fatalf("%s has %d Ed25519 keys", name, dropped)
		}
		if !found.Equal(wanted) || !found.Equal(canonical) {
			t.Fatalf("%s: another bundle", name)
		}
	}
}

// While nothing changes, nothing is transferred: after the first fetch-all the store is asked by its digest.
func TestNothingIsTransferred(t *testing.T) {
	letters := make(chan byte, 1000)
	client := answered(t, func(stream net.Conn, _ int) {
		for letter := letterOf(stream); letter != 0; letter = letterOf(stream) {
			letters <- letter
			io.WriteString(stream, answers[letter])
		}
	})
	following(t, client)
	asked := ""
	for len(asked) < 6 {
		asked += string(rune(<-letters))
	}
	if asked != "FVUUUU" {
		t.Fatal(asked)
	}
}

// A fetch-all that fails is told, and the bundles of before stay; a closed client is told once.
func TestFailures(t *testing.T) {
	client := serve(t)
	a := newAuthority(t, "a.example")
	set(t, client, "a.example", document(t, 1, a.x509Entry()))
	told := make(chan error, 100)
	source := following(t, client, WithOnError(func(err error) { told <- err }))
	check(t, client.Close())
	is(t, <-told, hopslintel.ErrClosed)
	<-source.ended
	check(t, shakeHands(t, source, a, a))
	is(t, source.WaitUntilUpdated(soon(t)), ErrClosed)
	_, err := NewSource(soon(t), client, WithOnError(func(error) {}))
	is(t, err, hopslintel.ErrClosed)
}

// A source waits for its first bundles as long as its context says, also if the server answers nonsense.
func TestTheFirstBundles(t *testing.T) {
	store, silent := serve(t), newSilent(t)
	brief, cancel := context.WithTimeout(context.Background(), 50*time.Millisecond)
	defer cancel()
	_, err := NewSource(brief, silent, WithInterval(often), WithOnError(func(error) {}))
	is(t, err, context.DeadlineExceeded)
	// A store that holds nothing is an answer.
	source := following(t, store)
	_, err = source.GetBundleForTrustDomain(spiffeid.RequireTrustDomainFromString("a.example"))
	is(t, err, hopslintel.ErrNoDomain)
	check(t, source.Close())
	check(t, source.Close())
	_, err = source.GetBundleForTrustDomain(spiffeid.RequireTrustDomainFromString("a.example"))
	is(t, err, ErrClosed)
	<-source.ended
	if _, err := store.FetchAll(soon(t)); err != nil {
		t.Fatal("the client is the caller's", err)
	}
}

// After an answer that is no reply the source goes on.
func TestNonsense(t *testing.T) {
	client := newNonsense(t)
	var lock sync.Mutex
	var errs []error
	source := following(t, client, WithOnError(func(err error) {
		lock.Lock()
		defer lock.Unlock()
		errs = append(errs, err)
	}))
	lock.Lock()
	defer lock.Unlock()
	if len(errs) != 2 || !errors.Is(errs[0], hopslintel.ErrProtocol) || !errors.Is(errs[1], hopslintel.ErrProtocol) {
		t.Fatal(errs)
	}
	check(t, source.Close())
}
