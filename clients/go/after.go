// SPDX-License-Identifier: Apache-2.0

//go:build go1.21

package hopslintel

import "context"

// afterEnd calls the function once the context has ended, unless stop is called before, which tells whether it was. Nothing
// runs beside the call until then.
func afterEnd(ctx context.Context, does func()) (stop func() bool) {
	return context.AfterFunc(ctx, does)
}
