// SPDX-License-Identifier: Apache-2.0

//go:build !go1.21

package hopslintel

import "context"

// afterEnd is as context.AfterFunc, which Go has from 1.21 on: it calls the function once the context has ended, unless stop
// is called before, which tells whether it was. A goroutine waits beside the call.
func afterEnd(ctx context.Context, does func()) (stop func() bool) {
	over, isStopped := make(chan struct{}), make(chan bool, 1)
	go func() {
		select {
		case <-over:
			isStopped <- true
			return
		case <-ctx.Done():
		}
		does()
		isStopped <- false
	}()
	return func() bool {
		close(over)
		return <-isStopped
	}
}
