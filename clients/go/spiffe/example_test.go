// SPDX-License-Identifier: Apache-2.0

package spiffe_test

import (
	"context"
	"log"
	"net/http"

	"github.com/spiffe/go-spiffe/v2/spiffetls/tlsconfig"
	"github.com/spiffe/go-spiffe/v2/svid/x509svid"

	"hopslintel.example/hopslintel"
	"hopslintel.example/hopslintel/spiffe"
)

// A server that trusts the workloads of each trust domain which the store has a bundle of.
func Example() {
	ctx := context.Background()
	store, err := hopslintel.Dial(ctx, "127.0.0.1:8443")
	if err != nil {
		log.Fatal(err)
	}
	defer store.Close()
	source, err := spiffe.NewSource(ctx, store)
	if err != nil {
		log.Fatal(err)
	}
	defer source.Close()
	svid, err := x509svid.Load("svid.pem", "key.pem")
	if err != nil {
		log.Fatal(err)
	}
	server := &http.Server{Addr: ":8444", TLSConfig: tlsconfig.MTLSServerConfig(svid, source, tlsconfig.AuthorizeAny())}
	log.Fatal(server.ListenAndServeTLS("", ""))
}
