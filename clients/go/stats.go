// SPDX-License-Identifier: Apache-2.0

package hopslintel

import (
	"context"
	"strconv"
	"strings"
)

// Stats gives what the server has counted, by the names of docs/FORMATS.md, such as "domains" and "requests_get". Later
// servers may have more of them, and a process "bundled run" has none.
//
// It puts the session into version 3. A server of before that version refuses it.
func (c *Client) Stats(ctx context.Context) (map[string]uint64, error) {
	reply, err := c.Do(ctx, StatsRequest())
	return reply.Stats, err
}

// parseStats reads counts: words NAME=N with single spaces between. A name is of letters, digits and underscores, so that
// one may be shown, and none stands twice.
func parseStats(line string) (stats map[string]uint64, ok bool) {
	stats = map[string]uint64{}
	if line == "" {
		return stats, true
	}
	for _, word := range strings.Split(line, " ") {
		name, digits, _ := strings.Cut(word, "=")
		number, isNumber := parseNumber(digits)
		if _, isThere := stats[name]; isThere || !isNumber || !isWord(name) {
			return nil, false
		}
		stats[name] = number
	}
	return stats, true
}

// parseNumber reads decimal digits, of which the first is no 0 but in 0 itself.
func parseNumber(digits string) (number uint64, ok bool) {
	number, err := strconv.ParseUint(digits, 10, 64)
	return number, err == nil && strconv.FormatUint(number, 10) == digits
}

func isWord(name string) bool {
	isBad := func(letter rune) bool {
		return letter != '_' && (letter < '0' || letter > '9') && (letter < 'A' || letter > 'Z') && (letter < 'a' || letter > 'z')
	}
	return name != "" && strings.IndexFunc(name, isBad) < 0
}
