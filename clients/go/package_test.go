// SPDX-License-Identifier: Apache-2.0

package hopslintel

// What the module is to those who name it in their go.mod.

import (
	"bufio"
	"fmt"
	"os"
	"os/exec"
	"path/filepath"
	"regexp"
	"strings"
	"testing"
)

func read(t testing.TB, path string) string {
	text, err := os.ReadFile(path)
	check(t, err)
	return string(text)
}

func TestLicense(t *testing.T) {
	for _, folder := range []string{".", "spiffe"} {
		equal(t, read(t, filepath.Join(folder, "LICENSE")), read(t, "../../LICENSE"))
		files, err := filepath.Glob(filepath.Join(folder, "*.go"))
		check(t, err)
		equal(t, len(files) > 2, true)
		for _, file := range files {
			equal(t, strings.HasPrefix(read(t, file), "// SPDX-License-Identifier: Apache-2.0\n"), true)
		}
	}
}

// The first element of the path has a dot, or no go.mod could require it, and the domain can't be had.
func TestModulePath(t *testing.T) {
	found := regexp.MustCompile(`(?m)^module (\S+)$`).FindStringSubmatch(read(t, "go.mod"))
	equal(t, strings.HasSuffix(strings.Split(found[1], "/")[0], ".example"), true)
	equal(t, strings.Contains(read(t, "README.md"), fmt.Sprintf("    replace %s => ", found[1])), true)
}

// programs are those that the page shows.
func programs(t testing.TB, page string) (programs []string) {
	for _, block := range regexp.MustCompile(`(?m)(?:^    .*\n|^\n)+`).FindAllString(page, -1) {
		text := regexp.MustCompile(`(?m)^    `).ReplaceAllString(block, "")
		if text = strings.TrimLeft(text, "\n"); strings.HasPrefix(text, "package main\n") {
			programs = append(programs, text)
		}
	}
	return programs
}

// built is a program, made as by a user of the module.
func built(t testing.TB, text, port string) *exec.Cmd {
	here, err := os.Getwd()
	check(t, err)
	folder := t.TempDir()
	const module = "hopslintel.example/hopslintel"
	mod := fmt.Sprintf("module program\ngo 1.19\nrequire %s v1.0.0\nreplace %s => %s\n", module, module, here)
	check(t, os.WriteFile(filepath.Join(folder, "go.mod"), []byte(mod), 0o600))
	check(t, os.WriteFile(filepath.Join(folder, "main.go"), []byte(strings.ReplaceAll(text, "8443", port)), 0o600))
	building := exec.Command("go", "build", "-o", "program", ".")
	building.Dir = folder
	if said, err := building.CombinedOutput(); err != nil {
		t.Fatalf("%v: %s", err, said)
	}
	return exec.Command(filepath.Join(folder, "program"))
}

func TestProgramsOfTheReadme(t *testing.T) {
	found := programs(t, read(t, "README.md"))
	equal(t, len(found), 2)
	port := serve(t)[0]
	said, err := built(t, found[0], port).CombinedOutput()
	check(t, err)
	equal(t, string(said), "a.example {\"keys\":[],\"spiffe_sequence\":7}\nb.example has no bundle\n")
	following := built(t, strings.ReplaceAll(found[1], "5*time.Second", "5*time.Millisecond"), port)
	output, err := following.StderrPipe()
	check(t, err)
	check(t, following.Start())
	t.Cleanup(func() {
		following.Process.Kill()
		following.Wait()
	})
	lines, client := bufio.NewReader(output), dial(t, port)
	for _, row := range []struct {
		wanted string
		next   Request
	}{
		{`trust a.example {"keys":[],"spiffe_sequence":7}`, SetRequest("b.example", empty)},
		{`trust b.example {"keys":[]}`, SetRequest("b.example", third)},
		{`trust b.example {"keys":[],"spiffe_sequence":3}`, RemoveRequest("b.example")},
		{`do not trust b.example`, FetchAllRequest()},
	} {
		line, err := lines.ReadString('\n')
		check(t, err)
		equal(t, line[len("2026/11/28 12:00:00 "):], row.wanted+"\n")
		_, err = client.Do(soon(t), row.next)
		check(t, err)
	}
}
