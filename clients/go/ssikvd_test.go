package ssikvd

import (
	"bufio"
	"bytes"
	"encoding/hex"
	"fmt"
	"os"
	"strings"
	"testing"
)

func bytesOf(t *testing.T, word string) []byte {
	if word == "-" {
		return []byte{}
	}
	data, err := hex.DecodeString(word)
	if err != nil {
		t.Fatal(err)
	}
	return data
}

// rows gives those of a kind in ../frames.txt: the words before `=`, and those after it.
func rows(t *testing.T, kind string) (found [][2][]string) {
	text, err := os.ReadFile("../frames.txt")
	if err != nil {
		t.Fatal(err)
	}
	for _, line := range strings.Split(string(text), "\n") {
		if strings.HasPrefix(line, kind+" ") {
			left, right, _ := strings.Cut(line[len(kind):], "=")
			found = append(found, [2][]string{strings.Fields(left), strings.Fields(right)})
		}
	}
	if len(found) == 0 {
		t.Fatal("no rows of ", kind)
	}
	return found
}

// shown gives a reply in the words of a row.
func shown(reply any) string {
	word := func(data []byte) string {
		if len(data) == 0 {
			return "-"
		}
		return hex.EncodeToString(data)
	}
	switch found := reply.(type) {
	case nil:
		return "none"
	case string:
		return "done " + word([]byte(found))
	case refused:
		return "refused " + word([]byte(found))
	case int64:
		return fmt.Sprint("number ", found)
	case []byte:
		return "value " + word(found)
	}
	words := []string{"pairs"}
	for _, part := range reply.([][]byte) {
		words = append(words, word(part))
	}
	return strings.Join(words, " ")
}

func TestRequests(t *testing.T) {
	for _, row := range rows(t, "request") {
		var parts []string
		for _, word := range row[0] {
			parts = append(parts, string(bytesOf(t, word)))
		}
		if found := encode(parts...); !bytes.Equal(found, bytesOf(t, row[1][0])) {
			t.Errorf("%q is encoded as %q", parts, found)
		}
	}
}

func TestReplies(t *testing.T) {
	for _, row := range rows(t, "reply") {
		frame, due := bytesOf(t, row[0][0]), strings.Join(row[1], " ")
		from := bufio.NewReader(bytes.NewReader(append(frame, "+OK\r\n"...)))
		reply, err := readReply(from)
		rest, _ := from.Peek(5)
		if err != nil || shown(reply) != due || string(rest) != "+OK\r\n" {
			t.Errorf("%q is read as %v, %v", frame, reply, err)
		}
		for length := range frame {
			if _, err := readReply(bufio.NewReader(bytes.NewReader(frame[:length]))); err == nil || err == errNoReply {
				t.Errorf("%q is read with %v", frame[:length], err)
			}
		}
	}
}

func TestNoReplies(t *testing.T) {
	frames := [][]byte{bytes.Repeat([]byte("a"), 10_000), append([]byte("+"), bytes.Repeat([]byte("a"), 10_000)...)}
	for _, row := range rows(t, "bad") {
		frames = append(frames, bytesOf(t, row[0][0]))
	}
	for _, frame := range frames {
		if _, err := readReply(bufio.NewReader(bytes.NewReader(frame))); err != errNoReply {
			t.Errorf("%.40q is read with %v", frame, err)
		}
	}
}

func TestKeys(t *testing.T) {
	ones := strings.Repeat("\xff", 256)
	for _, row := range []struct {
		call func(string) (string, bool)
		key  string
		due  string
	}{
		{After, "a", "a\x00"},
		{After, strings.Repeat("a", 256), strings.Repeat("a", 255) + "b"},
		{After, "a" + ones[1:], "b"},
		{After, ones, ""},
		{EndOfPrefix, "user:", "user;"},
		{EndOfPrefix, "a\xff", "b"},
		{EndOfPrefix, "", ""},
		{EndOfPrefix, "\xff\xff", ""},
	} {
		if found, isThere := row.call(row.key); found != row.due || isThere != (row.due != "") {
			t.Errorf("above %.10q is %.10q, %v", row.key, found, isThere)
		}
	}
}
