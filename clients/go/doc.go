// SPDX-License-Identifier: Apache-2.0

// Package hopslintel is a client of Hopslintel, a store of SPIFFE trust bundles.
//
//	store, err := hopslintel.Dial(ctx, "127.0.0.1:8443")
//	if err != nil {
//		return err
//	}
//	defer store.Close()
//	bundle, err := store.Get(ctx, "a.example") // {"keys":[],"spiffe_sequence":7}
//	all, err := store.FetchAll(ctx)            // all bundles, as they stood at one moment
//
// A bundle is the text of a JWK set with the members of SPIFFE Trust Domain and Bundle, section 4. The module
// hopslintel.example/hopslintel/spiffe makes a source of bundles for go-spiffe out of a client.
//
// The package speaks the binary protocol of docs/FORMATS.md, and needs nothing besides the standard library.
//
// # Errors
//
// A [RefusedError] or a [GivenUpError] is the answer of the store, and nothing has changed. Every other error says why a
// call has no answer, and keeps its cause for [errors.Is] and [errors.As]: [ErrClosed], [ErrDisconnected], [ErrProtocol],
// [ErrTooLarge], the error of the context, or [os.ErrDeadlineExceeded] if the time of [WithTimeout] was over. If such a call
// was a change and may have been sent, the error is [ErrInDoubt] too: whether the change took effect is not known.
package hopslintel
