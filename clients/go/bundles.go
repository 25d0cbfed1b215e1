// SPDX-License-Identifier: Apache-2.0

package hopslintel

import (
	"crypto/sha256"
	"encoding/hex"
	"sort"
)

// Bundles are the canonical texts of bundles, by the names of their trust domains.
type Bundles map[string][]byte

// Digest is the SHA-256 of a dump, which tells sets of bundles from each other.
type Digest [sha256.Size]byte

// String gives the hexadecimal digits, as "bundled digest" writes them.
func (d Digest) String() string {
	return hex.EncodeToString(d[:])
}

// Names gives the names of the trust domains in order.
func (b Bundles) Names() []string {
	names := make([]string, 0, len(b))
	for name := range b {
		names = append(names, name)
	}
	sort.Strings(names)
	return names
}

// Map gives a SPIFFE bundle map of them: the JSON text that gRPC and Envoy read.
func (b Bundles) Map() []byte {
	text := []byte(`{"trust_domains":{`)
	for place, name := range b.Names() {
		if place > 0 {
			text = append(text, ',')
		}
		text = append(text, `"`+name+`":`...)
		text = append(text, b[name]...)
	}
	return append(text, "}}\n"...)
}

// Dump gives a dump of them, as "bundled serve --load" and "bundled migrate" read it. Equal sets of bundles have equal
// dumps.
func (b Bundles) Dump() []byte {
	dump := appendFrame(nil, append([]byte{'a'}, big64(uint64(len(b)))...))
	for _, name := range b.Names() {
		item := append([]byte{'i', byte(len(name))}, name...)
		dump = appendFrame(dump, append(item, b[name]...))
	}
	return dump
}
