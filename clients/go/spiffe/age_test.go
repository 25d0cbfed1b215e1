// SPDX-License-Identifier: Apache-2.0

package spiffe

import (
	"context"
	"errors"
	"io"
	"net"
	"sync/atomic"
	"testing"
	"time"

	"github.com/spiffe/go-spiffe/v2/spiffeid"

	"hopslintel.example/hopslintel"
)

// wavering is a client of a server that holds nothing. It answers nothing while it is silent, and ends connections while it is
// away.
func wavering(t *testing.T) (client *hopslintel.Client, isSilent, isAway *atomic.Bool) {
	isSilent, isAway = new(atomic.Bool), new(atomic.Bool)
	client = answered(t, func(stream net.Conn, _ int) {
		for letter := letterOf(stream); letter != 0 && !isAway.Load(); letter = letterOf(stream) {
			if !isSilent.Load() {
				io.WriteString(stream, answers[letter])
			}
		}
	})
	return client, isSilent, isAway
}

// until waits until the source says all this of a trust domain.
func until(t *testing.T, source *Source, wanted ...error) {
	t.Helper()
	var err error
	for end := time.Now().Add(time.Minute); time.Now().Before(end); time.Sleep(time.Millisecond) {
		_, err = source.GetX509BundleForTrustDomain(spiffeid.RequireTrustDomainFromString("a.example"))
		are := 0
		for _, it := range wanted {
			if errors.Is(err, it) {
				are++
			}
		}
		if are == len(wanted) {
			return
		}
	}
	t.Fatalf("%v, and never %v", err, wanted)
}

// Bundles that can't be refreshed are used until they are too old, and there are bundles again after the next fetch-all.
func TestMaxAge(t *testing.T) {
	client, _, isAway := wavering(t)
	source := following(t, client, WithMaxAge(200*time.Millisecond), WithOnError(func(error) {}))
	for range "12" {
		until(t, source, hopslintel.ErrNoDomain)
		isAway.Store(true)
		until(t, source, ErrTooOld, hopslintel.ErrDisconnected, io.ErrUnexpectedEOF)
		_, err := source.GetBundleForTrustDomain(spiffeid.RequireTrustDomainFromString("a.example"))
		is(t, err, ErrTooOld)
		_, err = source.GetJWTBundleForTrustDomain(spiffeid.RequireTrustDomainFromString("a.example"))
		is(t, err, ErrTooOld)
		isAway.Store(false)
	}
	until(t, source, hopslintel.ErrNoDomain)
	// A client that was closed refreshes nothing any more.
	check(t, client.Close())
	until(t, source, ErrTooOld, hopslintel.ErrClosed)
}

// A fetch-all that does not end makes them too old as well.
func TestASilentServerMakesThemTooOld(t *testing.T) {
	client, isSilent, _ := wavering(t)
	source := following(t, client, WithMaxAge(200*time.Millisecond), WithOnError(func(error) {}))
	until(t, source, hopslintel.ErrNoDomain)
	isSilent.Store(true)
	until(t, source, ErrTooOld)
	check(t, source.Close())
	until(t, source, ErrClosed)
}

// Without an age they stay in use.
func TestWithoutMaxAge(t *testing.T) {
	client, _, isAway := wavering(t)
	failed := make(chan error, 1000)
	source := following(t, client, WithOnError(func(err error) { failed <- err }))
	isAway.Store(true)
	is(t, <-failed, hopslintel.ErrDisconnected)
	before := source.LastRefreshed()
	is(t, <-failed, hopslintel.ErrDisconnected)
	until(t, source, hopslintel.ErrNoDomain)
	if !source.LastRefreshed().Equal(before) {
		t.Fatal("nothing was refreshed")
	}
}

// What is the same is refreshed too, and is as old as the request for it.
func TestLastRefreshed(t *testing.T) {
	client, _, _ := wavering(t)
	start := time.Now()
	source := following(t, client)
	for last := start; last.Sub(start) < 20*often; {
		next := source.LastRefreshed()
		if next.Before(last) || next.After(time.Now()) {
			t.Fatalf("%v after %v", next, last)
		}
		last = next
	}
}

// An age is that of the clock that shows more.
func TestAges(t *testing.T) {
	source := &Source{settings: settings{maxAge: time.Hour}}
	now := time.Now()
	for _, row := range []struct {
		at     time.Time
		wanted bool
	}{
		{now, false},
		{now.Add(-time.Minute), false},
		{now.Add(-2 * time.Hour), true},
		{now.Round(0).Add(-2 * time.Hour), true},
		{now.Add(2 * time.Hour), false},
	} {
		if source.isTooOld(row.at) != row.wanted {
			t.Fatal(row)
		}
	}
	source.settings.maxAge = 0
	if source.isTooOld(now.Add(-2 * time.Hour)) {
		t.Fatal("there is no age")
	}
}

// A source that never had bundles tells why.
func TestWhyThereAreNoBundles(t *testing.T) {
	client, _, isAway := wavering(t)
	isAway.Store(true)
	failed := make(chan bool, 1000)
	ctx, cancel := context.WithCancel(soon(t))
	go func() {
		<-failed
		cancel()
	}()
	_, err := NewSource(ctx, client, WithInterval(often), WithOnError(func(error) { failed <- true }))
	for _, wanted := range []error{context.Canceled, hopslintel.ErrDisconnected, io.ErrUnexpectedEOF} {
		is(t, err, wanted)
	}
}
