// SPDX-License-Identifier: Apache-2.0

package hopslintel

import (
	"bytes"
	"context"
	"errors"
	"os"
	"time"
)

// Changes are what changed from one fetch-all to the next.
type Changes struct {
	// Bundles are all of them, as they stood at one moment.
	Bundles Bundles
	// Added are those of trust domains that had none.
	Added Bundles
	// Changed are those that took the place of others.
	Changed Bundles
	// Removed has the trust domains that have no bundle any more, in order.
	Removed []string
}

// ChangesBetween gives what changed from the bundles before to those after. Canonical texts are equal if and only if the
// bundles are.
func ChangesBetween(before, after Bundles) Changes {
	changes := Changes{Bundles: after, Added: Bundles{}, Changed: Bundles{}}
	for name, text := range after {
		if old, ok := before[name]; !ok {
			changes.Added[name] = text
		} else if !bytes.Equal(old, text) {
			changes.Changed[name] = text
		}
	}
	for _, name := range before.Names() {
		if _, ok := after[name]; !ok {
			changes.Removed = append(changes.Removed, name)
		}
	}
	return changes
}

// Follow makes a fetch-all again and again, this interval apart, and gives the function what changed from one to the next.
// What comes first is what is there, all of it as added, even if it is nothing; after that the function is called only if
// something changed. While nothing changes no bundle is transferred, as by FetchAllUnless.
//
// It ends with the first error of the function, with the context, with Close, or with a fetch-all that fails. If onError
// is given, a fault of the moment goes to that, and the next fetch-all comes after the interval: no connection, no answer
// within the client's time, or an answer that gave up. The bundles of before stay in use for so long.
func (c *Client) Follow(ctx context.Context, interval time.Duration, changed func(Changes) error, onError func(error)) error {
	var before Bundles
	var known *Digest
	for {
		fetched, err := c.fetchAfter(ctx, known)
		if err != nil {
			if ended := c.ended(limitsOf(ctx)); ended != nil {
				return ended
			}
			if onError == nil || !c.isOfTheMoment(err) {
				return err
			}
			onError(err)
		} else if !fetched.IsSame {
			if err := changed(ChangesBetween(before, fetched.Bundles)); err != nil {
				return err
			}
			before, known = fetched.Bundles, &fetched.Digest
		}
		if err := c.wait(limitsOf(ctx), interval); err != nil {
			return err
		}
	}
}

// fetchAfter makes a fetch-all, unless the bundles have a digest that is known, if one is.
func (c *Client) fetchAfter(ctx context.Context, known *Digest) (Fetched, error) {
	if known != nil {
		return c.FetchAllUnless(ctx, *known)
	}
	reply, err := c.Do(ctx, FetchAllRequest())
	return Fetched{Bundles: reply.Bundles, Digest: reply.Digest}, err
}

// isOfTheMoment tells whether the same request may have an answer next time.
func (c *Client) isOfTheMoment(err error) bool {
	var given *GivenUpError
	if errors.As(err, &given) {
		return true
	}
	return c.dial != nil && (errors.Is(err, ErrDisconnected) || errors.Is(err, os.ErrDeadlineExceeded))
}
