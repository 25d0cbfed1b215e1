// SPDX-License-Identifier: Apache-2.0

//go:build darwin || dragonfly || freebsd || linux || netbsd || openbsd

package hopslintel

import (
	"fmt"
	"io"
	"net"
	"os"
	"syscall"
)

// looking makes a function that tells, without waiting and without taking anything, whether the server has closed the
// connection, or has sent something. It is nil for what is no socket of the network: what comes there may be of another layer,
// such as TLS.
func looking(stream io.ReadWriteCloser) (look func() error) {
	var socket syscall.Conn
	switch stream := stream.(type) {
	case *net.TCPConn:
		socket = stream
	case *net.UnixConn:
		socket = stream
	default:
		return nil
	}
	raw, err := socket.SyscallConn()
	if err != nil {
		return nil
	}
	var size int
	var failure error
	first := make([]byte, 1)
	peek := func(descriptor uintptr) bool {
		size, _, failure = syscall.Recvfrom(int(descriptor), first, syscall.MSG_PEEK|syscall.MSG_DONTWAIT)
		return true
	}
	return func() error {
		if err := raw.Read(peek); err != nil {
			return err
		}
		switch {
		case failure == syscall.EAGAIN || failure == syscall.EINTR:
			return nil
		case failure != nil:
			return os.NewSyscallError("recvfrom", failure)
		case size == 0:
			return io.ErrUnexpectedEOF
		}
		return fmt.Errorf("%w: it came before the request", ErrProtocol)
	}
}
