// SPDX-License-Identifier: Apache-2.0

// Package spiffe makes a source of bundles for go-spiffe out of a client of Hopslintel.
//
//	source, err := spiffe.NewSource(ctx, store)
//	if err != nil {
//		return err
//	}
//	defer source.Close()
//	config := tlsconfig.MTLSServerConfig(svid, source, tlsconfig.AuthorizeAny())
//
// A [Source] is a spiffebundle.Source, an x509bundle.Source and a jwtbundle.Source. It follows the store: a handshake
// sees what the last fetch-all has found.
package spiffe

import (
	"bytes"
	"context"
	"errors"
	"fmt"
	"log"
	"sync/atomic"
	"time"

	"github.com/spiffe/go-spiffe/v2/bundle/jwtbundle"
	"github.com/spiffe/go-spiffe/v2/bundle/spiffebundle"
	"github.com/spiffe/go-spiffe/v2/bundle/x509bundle"
	"github.com/spiffe/go-spiffe/v2/spiffeid"

	"hopslintel.example/hopslintel"
)

var (
	_ spiffebundle.Source = (*Source)(nil)
	_ x509bundle.Source   = (*Source)(nil)
	_ jwtbundle.Source    = (*Source)(nil)
)

// ErrBadBundle: the trust domain has a bundle of which go-spiffe can't make one, such as that of an x5c that is not a
// certificate. Nobody of that domain is trusted.
var ErrBadBundle = errors.New("a bundle that cannot be used")

// ErrTooOld: the bundles are older than WithMaxAge allows. Nobody is trusted until a fetch-all succeeds again.
var ErrTooOld = errors.New("the bundles are too old")

// ErrClosed: the source was closed.
var ErrClosed = errors.New("the source is closed")

// Source has the bundles of all trust domains, as they stood in the store at one moment. Goroutines may share it.
type Source struct {
	client   *hopslintel.Client
	settings settings

	found    atomic.Pointer[found]
	failure  atomic.Pointer[failure]
	updated  chan struct{}
	first    chan struct{}
	isClosed atomic.Bool
	cancel   context.CancelFunc
	ended    chan struct{}
}

// found is what the last fetch-all that succeeded has found, and when it began.
type found struct {
	entries map[string]entry
	digest  hopslintel.Digest
	at      time.Time
}

// failure is why the fetch-all that was made last has failed; nil if it has not.
type failure struct{ err error }

// entry is what a trust domain has: the text of its bundle, and the bundle, or why it can't be used.
type entry struct {
	text   []byte
	bundle *spiffebundle.Bundle
	err    error
}

type settings struct {
	interval    time.Duration
	maxAge      time.Duration
	onError     func(error)
	onBadBundle func(domain string, err error)
}

// Option is a setting of a source.
type Option func(*settings)

// WithInterval sets how long after a fetch-all the next one begins. It is 5 seconds if nothing is said. While nothing changes,
// a fetch-all transfers no bundle.
func WithInterval(interval time.Duration) Option {
	return func(s *settings) { s.interval = interval }
}

// WithMaxAge sets how old bundles may be that are still in use while fetch-alls fail, or do not end. After that time there is no
// bundle of any trust domain: the error is ErrTooOld, and what the last fetch-all failed of. It has to be longer than the
// interval and the time of the client. If nothing is said, or 0, they stay in use for ever.
func WithMaxAge(age time.Duration) Option {
	return func(s *settings) { s.maxAge = age }
}

// WithOnError sets what is told of a fetch-all that failed. The bundles of before stay in use, for as long as WithMaxAge says,
// and the next fetch-all comes after the interval, unless the client was closed. If nothing is said, the log of the package log
// is told.
func WithOnError(onError func(error)) Option {
	return func(s *settings) { s.onError = onError }
}

// WithOnBadBundle sets what is told of a bundle that can't be used, once for each text of it. Its trust domain has no bundle
// then, not even the one of before; all others have theirs. If nothing is said, the log of the package log is told.
func WithOnBadBundle(onBadBundle func(domain string, err error)) Option {
	return func(s *settings) { s.onBadBundle = onBadBundle }
}

// NewSource makes a source that follows the store of a client. It waits until a fetch-all has succeeded or the context has
// ended; after that the context is not looked at any more. If it has ended, the error is also what the last fetch-all failed of.
// The client stays the caller's.
func NewSource(ctx context.Context, client *hopslintel.Client, options ...Option) (*Source, error) {
	own, cancel := context.WithCancel(context.Background())
	source := &Source{
		client: client,
		settings: settings{
			interval:    5 * time.Second,
			onError:     func(err error) { log.Printf("bundles are not refreshed: %v", err) },
			onBadBundle: func(domain string, err error) { log.Printf("no bundle of %s: %v", domain, err) },
		},
		updated: make(chan struct{}, 1),
		first:   make(chan struct{}),
		cancel:  cancel,
		ended:   make(chan struct{}),
	}
	for _, option := range options {
		option(&source.settings)
	}
	go source.run(own)
	select {
	case <-source.first:
		return source, nil
	case <-source.ended:
		return nil, fmt.Errorf("hopslintel/spiffe: %w", hopslintel.ErrClosed)
	case <-ctx.Done():
		source.Close()
		return nil, fmt.Errorf("hopslintel/spiffe: no bundles yet: %w", source.because(ctx.Err()))
	}
}

// because is the error with what the last fetch-all failed of, if it did.
func (s *Source) because(err error) error {
	if last := s.failure.Load(); last != nil {
		return fmt.Errorf("%w: %w", err, last.err)
	}
	return err
}

// run follows the store until the source or the client is closed.
func (s *Source) run(ctx context.Context) {
	defer close(s.ended)
	for ctx.Err() == nil {
		err := s.refresh(ctx)
		if ctx.Err() != nil {
			return
		}
		if err != nil {
			s.failure.Store(&failure{err})
			s.settings.onError(err)
		}
		if errors.Is(err, hopslintel.ErrClosed) {
			return
		}
		select {
		case <-time.After(s.settings.interval):
		case <-ctx.Done():
		}
	}
}

// refresh makes a fetch-all, which transfers no bundle if nothing has changed. What it finds is as old as its beginning.
func (s *Source) refresh(ctx context.Context) error {
	before, at := s.found.Load(), time.Now()
	fetched, err := s.fetch(ctx, before)
	if err != nil {
		return err
	}
	after := &found{digest: fetched.Digest, at: at}
	if fetched.IsSame {
		after.entries = before.entries
	} else {
		after.entries = s.parsed(before, fetched.Bundles)
	}
	s.found.Store(after)
	s.failure.Store(nil)
	if before == nil {
		close(s.first)
	} else if !fetched.IsSame {
		select {
		case s.updated <- struct{}{}:
		default:
		}
	}
	return nil
}

func (s *Source) fetch(ctx context.Context, before *found) (hopslintel.Fetched, error) {
	if before != nil {
		return s.client.FetchAllUnless(ctx, before.digest)
	}
	reply, err := s.client.Do(ctx, hopslintel.FetchAllRequest())
	return hopslintel.Fetched{Bundles: reply.Bundles, Digest: reply.Digest}, err
}

// parsed makes entries of bundles. Canonical texts are equal if and only if the bundles are, so only others than those of
// before are parsed.
func (s *Source) parsed(before *found, bundles hopslintel.Bundles) map[string]entry {
	entries := make(map[string]entry, len(bundles))
	for name, text := range bundles {
		if before != nil {
			if old, ok := before.entries[name]; ok && bytes.Equal(old.text, text) {
				entries[name] = old
				continue
			}
		}
		bundle, err := parse(name, text)
		if err != nil {
			err = fmt.Errorf("%w: %w", ErrBadBundle, err)
			s.settings.onBadBundle(name, err)
		}
		entries[name] = entry{text, bundle, err}
	}
	return entries
}

func parse(name string, text []byte) (*spiffebundle.Bundle, error) {
	domain, err := spiffeid.TrustDomainFromString(name)
	if err != nil {
		return nil, err
	}
	return spiffebundle.Parse(domain, text)
}

// Close ends the following. Later calls of the other methods are ErrClosed. The client stays open.
func (s *Source) Close() error {
	s.isClosed.Store(true)
	s.cancel()
	return nil
}

// LastRefreshed gives the moment at which the last fetch-all began that succeeded: what the store held then is known.
func (s *Source) LastRefreshed() time.Time {
	return s.found.Load().at
}

// isTooOld tells whether what began at a moment is, by one clock or the other: the one that timers go by stands still while a
// machine sleeps, and somebody may set the other one.
func (s *Source) isTooOld(at time.Time) bool {
	now, most := time.Now(), s.settings.maxAge
	return most > 0 && (now.Sub(at) > most || now.Round(0).Sub(at.Round(0)) > most)
}

// bundle is that of a trust domain. Nobody may change it.
func (s *Source) bundle(domain spiffeid.TrustDomain) (*spiffebundle.Bundle, error) {
	if s.isClosed.Load() {
		return nil, fmt.Errorf("hopslintel/spiffe: %w", ErrClosed)
	}
	last := s.found.Load()
	if s.isTooOld(last.at) {
		return nil, fmt.Errorf("hopslintel/spiffe: trust domain %q: %w", domain, s.because(ErrTooOld))
	}
	found, ok := last.entries[domain.Name()]
	if !ok {
		return nil, fmt.Errorf("hopslintel/spiffe: no bundle of trust domain %q: %w", domain, hopslintel.ErrNoDomain)
	}
	if found.err != nil {
		return nil, fmt.Errorf("hopslintel/spiffe: trust domain %q: %w", domain, found.err)
	}
	return found.bundle, nil
}

// GetBundleForTrustDomain gives a copy of the bundle of a trust domain.
func (s *Source) GetBundleForTrustDomain(domain spiffeid.TrustDomain) (*spiffebundle.Bundle, error) {
	bundle, err := s.bundle(domain)
	if err != nil {
		return nil, err
	}
	return bundle.Clone(), nil
}

// GetX509BundleForTrustDomain gives its X.509 authorities.
func (s *Source) GetX509BundleForTrustDomain(domain spiffeid.TrustDomain) (*x509bundle.Bundle, error) {
	bundle, err := s.bundle(domain)
	if err != nil {
		return nil, err
	}
	return bundle.X509Bundle(), nil
}

// GetJWTBundleForTrustDomain gives its JWT authorities.
func (s *Source) GetJWTBundleForTrustDomain(domain spiffeid.TrustDomain) (*jwtbundle.Bundle, error) {
	bundle, err := s.bundle(domain)
	if err != nil {
		return nil, err
	}
	return bundle.JWTBundle(), nil
}

// Updated gives a channel on which something comes whenever some bundle has changed since NewSource. Of several that wait at it
// one is told.
func (s *Source) Updated() <-chan struct{} {
	return s.updated
}

// WaitUntilUpdated waits until something comes on that channel, or the context has ended. Of several that wait one is told, as
// with a source of go-spiffe itself.
func (s *Source) WaitUntilUpdated(ctx context.Context) error {
	select {
	case <-s.updated:
		return nil
	case <-s.ended:
		return fmt.Errorf("hopslintel/spiffe: %w", ErrClosed)
	case <-ctx.Done():
		return ctx.Err()
	}
}
