// SPDX-License-Identifier: Apache-2.0

package hopslintel_test

import (
	"bufio"
	"context"
	"errors"
	"fmt"
	"log"
	"os"
	"os/exec"
	"strings"
	"testing"

	"hopslintel.example/hopslintel"
)

// address is that of a server which the examples share.
var address string

func TestMain(m *testing.M) {
	os.Exit(run(m))
}

func run(m *testing.M) int {
	server := exec.Command(os.Getenv("BUNDLED"), "serve", "--port", "0", "--connections", "unlimited", "--until-eof")
	_, err := server.StdinPipe() // it ends with this process, however that ends
	if err != nil {
		log.Print(err)
		return 1
	}
	output, err := server.StdoutPipe()
	if err == nil {
		err = server.Start()
	}
	if err != nil {
		log.Printf("BUNDLED has to be the path of the program: %v", err)
		return 1
	}
	defer server.Wait()
	defer server.Process.Kill()
	line, err := bufio.NewReader(output).ReadString('\n')
	if err != nil {
		log.Print(err)
		return 1
	}
	address = "127.0.0.1:" + strings.TrimSpace(strings.TrimPrefix(line, "listening"))
	return m.Run()
}

func Example() {
	ctx := context.Background()
	store, err := hopslintel.Dial(ctx, address)
	if err != nil {
		log.Fatal(err)
	}
	defer store.Close()
	if _, err := store.Set(ctx, "a.example", []byte(`{"keys":[],"spiffe_sequence":7}`)); err != nil {
		log.Fatal(err)
	}
	bundle, err := store.Get(ctx, "a.example")
	if err != nil {
		log.Fatal(err)
	}
	fmt.Println(string(bundle))
	if _, err := store.Get(ctx, "b.example"); errors.Is(err, hopslintel.ErrNoDomain) {
		fmt.Println("b.example has no bundle")
	}
	// Output:
	// {"keys":[],"spiffe_sequence":7}
	// b.example has no bundle
}

func ExampleClient_FetchAll() {
	ctx := context.Background()
	store, err := hopslintel.Dial(ctx, address)
	if err != nil {
		log.Fatal(err)
	}
	defer store.Close()
	for _, name := range []string{"y.example", "x.example"} {
		if _, err := store.Set(ctx, name, []byte(`{"keys":[]}`)); err != nil {
			log.Fatal(err)
		}
	}
	all, err := store.FetchAll(ctx) // as they stood at one moment
	if err != nil {
		log.Fatal(err)
	}
	for _, name := range all.Names() {
		if name > "x" {
			fmt.Printf("%s %s\n", name, all[name])
		}
	}
	// Output:
	// x.example {"keys":[]}
	// y.example {"keys":[]}
}

// Who has fetched all fetches them again only if something changed.
func ExampleClient_FetchAllUnless() {
	ctx := context.Background()
	store, err := hopslintel.Dial(ctx, address)
	if err != nil {
		log.Fatal(err)
	}
	defer store.Close()
	var known hopslintel.Digest
	for _, change := range []string{`{"keys":[]}`, "", `{"keys":[],"spiffe_sequence":1}`} {
		if change != "" {
			if _, err := store.Set(ctx, "z.example", []byte(change)); err != nil {
				log.Fatal(err)
			}
		}
		fetched, err := store.FetchAllUnless(ctx, known)
		if err != nil {
			log.Fatal(err)
		}
		if fetched.IsSame {
			fmt.Println("as before")
			continue
		}
		fmt.Println(string(fetched.Bundles["z.example"]))
		known = fetched.Digest
	}
	// Output:
	// {"keys":[]}
	// as before
	// {"keys":[],"spiffe_sequence":1}
}

// Of two who have read the same bundle the first sets it, and the other is refused.
func ExampleClient_SetIf() {
	ctx := context.Background()
	store, err := hopslintel.Dial(ctx, address)
	if err != nil {
		log.Fatal(err)
	}
	defer store.Close()
	for sequence := 1; sequence <= 2; sequence++ {
		document := fmt.Sprintf(`{"keys":[],"spiffe_sequence":%d}`, sequence)
		_, err := store.SetIf(ctx, "c.example", hopslintel.ExpectAbsent, []byte(document))
		var refused *hopslintel.RefusedError
		if errors.As(err, &refused) {
			fmt.Println(refused.Name, refused.Found)
		} else if err != nil {
			log.Fatal(err)
		}
	}
	// Output: NotExpected 1
}

func ExampleClient_Pipeline() {
	ctx := context.Background()
	store, err := hopslintel.Dial(ctx, address)
	if err != nil {
		log.Fatal(err)
	}
	defer store.Close()
	names := []string{"d.example", "e.example"}
	requests := []hopslintel.Request{hopslintel.SetRequest("d.example", []byte(`{"keys":[]}`))}
	for _, name := range names {
		requests = append(requests, hopslintel.GetRequest(name))
	}
	err = store.Pipeline(ctx, requests, func(place int, reply hopslintel.Reply) error {
		if place > 0 {
			fmt.Printf("%s %s %v\n", names[place-1], reply.Bundle, reply.Err)
		}
		return nil
	})
	if err != nil {
		log.Fatal(err)
	}
	// Output:
	// d.example {"keys":[]} <nil>
	// e.example  hopslintel: refused 30 NoDomain
}

// A store of its own, without a port.
func ExampleNewClient() {
	process := exec.Command(os.Getenv("BUNDLED"), "run")
	input, err := process.StdinPipe()
	if err != nil {
		log.Fatal(err)
	}
	output, err := process.StdoutPipe()
	if err != nil {
		log.Fatal(err)
	}
	if err := process.Start(); err != nil {
		log.Fatal(err)
	}
	store := hopslintel.NewClient(hopslintel.Pipe(output, input))
	stored, err := store.Set(context.Background(), "a.example", []byte(`{"keys":[]}`))
	fmt.Println(stored, err)
	store.Close()
	process.Wait()
	// Output: true <nil>
}
