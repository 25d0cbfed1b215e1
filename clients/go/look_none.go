// SPDX-License-Identifier: Apache-2.0

//go:build !(darwin || dragonfly || freebsd || linux || netbsd || openbsd)

package hopslintel

import "io"

// looking is nil where nobody can look without waiting.
func looking(io.ReadWriteCloser) (look func() error) {
	return nil
}
