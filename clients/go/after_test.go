// SPDX-License-Identifier: Apache-2.0

//go:build go1.21

package hopslintel

import (
	"context"
	"testing"
)

// Nor does anything run beside a call if its context can be cancelled. (Before Go 1.21 a goroutine waits for that.)
func TestNothingRunsBesideACallWithAContext(t *testing.T) {
	ctx, cancel := context.WithCancel(context.Background())
	defer cancel()
	if count := besideACall(t, ctx); count > 0 {
		t.Fatalf("%d goroutines beside it", count)
	}
}
