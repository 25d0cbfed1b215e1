// SPDX-License-Identifier: Apache-2.0

package spiffe

// What the tests share: the built program, whose path is in BUNDLED, and authorities that are made here.

import (
	"bufio"
	"context"
	"crypto/ecdsa"
	"crypto/elliptic"
	"crypto/rand"
	"crypto/tls"
	"crypto/x509"
	"encoding/base64"
	"encoding/binary"
	"encoding/json"
	"errors"
	"io"
	"math/big"
	"net"
	"net/url"
	"os"
	"os/exec"
	"strings"
	"testing"
	"time"

	"github.com/spiffe/go-spiffe/v2/spiffeid"
	"github.com/spiffe/go-spiffe/v2/spiffetls/tlsconfig"
	"github.com/spiffe/go-spiffe/v2/svid/x509svid"

	"hopslintel.example/hopslintel"
)

func soon(t *testing.T) context.Context {
	ctx, cancel := context.WithTimeout(context.Background(), time.Minute)
	t.Cleanup(cancel)
	return ctx
}

func check(t *testing.T, err error) {
	t.Helper()
	if err != nil {
		t.Fatal(err)
	}
}

func is(t *testing.T, err, wanted error) {
	t.Helper()
	if !errors.Is(err, wanted) {
		t.Fatalf("%v, and not %v", err, wanted)
	}
}

// serve is a client of a server that ends with its input, so that it ends with the test, however that ends.
func serve(t *testing.T) *hopslintel.Client {
	server := exec.Command(os.Getenv("BUNDLED"), "serve", "--port", "0", "--connections", "unlimited", "--until-eof")
	_, err := server.StdinPipe()
	check(t, err)
	output, err := server.StdoutPipe()
	check(t, err)
	check(t, server.Start())
	t.Cleanup(func() {
		server.Process.Kill()
		server.Wait()
	})
	line, err := bufio.NewReader(output).ReadString('\n')
	check(t, err)
	return dial(t, "127.0.0.1:"+strings.Fields(line)[1])
}

func dial(t *testing.T, address string) *hopslintel.Client {
	client, err := hopslintel.Dial(soon(t), address)
	check(t, err)
	t.Cleanup(func() { client.Close() })
	return client
}

func set(t *testing.T, client *hopslintel.Client, name string, document []byte) {
	t.Helper()
	_, err := client.Set(soon(t), name, document)
	check(t, err)
}

// authority is a trust domain's.
type authority struct {
	domain      spiffeid.TrustDomain
	certificate *x509.Certificate
	key         *ecdsa.PrivateKey
}

func newAuthority(t *testing.T, name string) authority {
	domain := spiffeid.RequireTrustDomainFromString(name)
	made := certify(t, domain.IDString(), nil)
	return authority{domain, made.Certificates[0], made.PrivateKey.(*ecdsa.PrivateKey)}
}

// svid is that of a workload of the domain.
func (a authority) svid(t *testing.T) *x509svid.SVID {
	return certify(t, a.domain.IDString()+"/workload", &a)
}

// certify makes a certificate of this ID: of an authority if there is no issuer, else of a workload.
func certify(t *testing.T, text string, issuer *authority) *x509svid.SVID {
	id, err := url.Parse(text)
	check(t, err)
	key, err := ecdsa.GenerateKey(elliptic.P256(), rand.Reader)
	check(t, err)
	now := time.Now()
	template := &x509.Certificate{SerialNumber: big.NewInt(1), URIs: []*url.URL{id}, NotBefore: now.Add(-time.Hour),
		NotAfter: now.Add(time.Hour), BasicConstraintsValid: true}
	parent, signer := template, key
	if issuer == nil {
		template.IsCA, template.KeyUsage = true, x509.KeyUsageCertSign
	} else {
		template.KeyUsage = x509.KeyUsageDigitalSignature
		template.ExtKeyUsage = []x509.ExtKeyUsage{x509.ExtKeyUsageServerAuth, x509.ExtKeyUsageClientAuth}
		parent, signer = issuer.certificate, issuer.key
	}
	made, err := x509.CreateCertificate(rand.Reader, template, parent, key.Public(), signer)
	check(t, err)
	certificate, err := x509.ParseCertificate(made)
	check(t, err)
	found, _ := spiffeid.FromString(text)
	return &x509svid.SVID{ID: found, Certificates: []*x509.Certificate{certificate}, PrivateKey: key}
}

// entry is a JWK of the authority, with these members beside those of its key.
func (a authority) entry(members map[string]any) map[string]any {
	text := func(number *big.Int) string {
		return base64.RawURLEncoding.EncodeToString(number.FillBytes(make([]byte, 32)))
	}
	members["kty"], members["crv"], members["x"], members["y"] = "EC", "P-256", text(a.key.X), text(a.key.Y)
	return members
}

func (a authority) x509Entry() map[string]any {
	return a.entry(map[string]any{"use": "x509-svid", "x5c": []string{base64.StdEncoding.EncodeToString(a.certificate.Raw)}})
}

func document(t *testing.T, sequence int, entries ...map[string]any) []byte {
	if entries == nil {
		entries = []map[string]any{}
	}
	text, err := json.Marshal(map[string]any{"keys": entries, "spiffe_sequence": sequence})
	check(t, err)
	return text
}

// shakeHands is what becomes of mutual TLS between workloads of two domains, of which each knows the bundles of the source.
func shakeHands(t *testing.T, source *Source, server, client authority) error {
	ours, theirs := net.Pipe()
	defer ours.Close()
	defer theirs.Close()
	deadline := time.Now().Add(time.Minute)
	check(t, ours.SetDeadline(deadline))
	check(t, theirs.SetDeadline(deadline))
	failed := make(chan error, 1)
	go func() {
		config := tlsconfig.MTLSServerConfig(server.svid(t), source, tlsconfig.AuthorizeMemberOf(client.domain))
		serving := tls.Server(ours, config)
		err := serving.Handshake()
		if err == nil {
			_, err = serving.Write([]byte("!"))
		}
		failed <- err
		ours.Close()
	}()
	config := tlsconfig.MTLSClientConfig(client.svid(t), source, tlsconfig.AuthorizeMemberOf(server.domain))
	asking := tls.Client(theirs, config)
	_, err := io.ReadFull(asking, make([]byte, 1))
	theirs.Close()
	if served := <-failed; served != nil {
		return served
	}
	return err
}

// newSilent is a client of a server that answers nothing.
func newSilent(t *testing.T) *hopslintel.Client {
	return answered(t, func(stream net.Conn, _ int) { io.Copy(io.Discard, stream) })
}

// newNonsense is a client of a server that answers the requests of the first two connections by no reply, and then as one
// does that holds nothing.
func newNonsense(t *testing.T) *hopslintel.Client {
	return answered(t, func(stream net.Conn, number int) {
		for letter := letterOf(stream); letter != 0; letter = letterOf(stream) {
			if number < 2 {
				letter = 'Z'
			}
			io.WriteString(stream, answers[letter])
		}
	})
}

// answers are those of a server that holds nothing, to fetch-alls and to what comes before one that knows a digest; and what
// is no reply.
var answers = map[byte]string{
	'F': "\x00\x00\x00\x09a\x00\x00\x00\x00\x00\x00\x00\x00",
	'V': "\x00\x00\x00\x02v\x03",
	'U': "\x00\x00\x00\x01e",
	'Z': "\x00\x00\x00\x01s",
}

// letterOf reads a request, and gives its letter; 0 if none comes.
func letterOf(stream net.Conn) byte {
	length := make([]byte, 4)
	if _, err := io.ReadFull(stream, length); err != nil {
		return 0
	}
	payload := make([]byte, binary.BigEndian.Uint32(length))
	if _, err := io.ReadFull(stream, payload); err != nil {
		return 0
	}
	return payload[0]
}

// answered is a client of a server that serves connections, which are numbered from 0, one after the other.
func answered(t *testing.T, serve func(net.Conn, int)) *hopslintel.Client {
	listener, err := net.Listen("tcp", "127.0.0.1:0")
	check(t, err)
	ended := make(chan struct{})
	go func() {
		defer close(ended)
		for number := 0; ; number++ {
			stream, err := listener.Accept()
			if err != nil {
				return // it was closed
			}
			serve(stream, number)
			stream.Close()
		}
	}()
	t.Cleanup(func() {
		listener.Close()
		<-ended
	})
	return dial(t, listener.Addr().String())
}
