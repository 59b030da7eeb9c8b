package ssikvd

import (
	"bufio"
	"errors"
	"fmt"
	"io"
	"strconv"
)

const (
	keyMax, valueMax, writesMax, marksMax, pairsMax, connectionsMax = 256, 16384, 64, 256, 128, 64
	lineMax                                                         = 600
)

var errNoReply = errors.New("this is no reply of ssikvd")

// refused is a reply that is a refusal: its text.
type refused string

// encode gives the request of these parts.
func encode(parts ...string) []byte {
	frame := fmt.Appendf(nil, "*%d\r\n", len(parts))
	for _, part := range parts {
		frame = fmt.Appendf(frame, "$%d\r\n%s\r\n", len(part), part)
	}
	return frame
}

// readReply takes the next reply: a string for a simple text, refused, an int64, []byte for a bulk and nil for none, [][]byte for an array, which holds
// key, value, key, value.
func readReply(from *bufio.Reader) (any, error) {
	kind, text, err := readLine(from)
	if err != nil {
		return nil, err
	}
	switch {
	case kind == '+':
		return text, nil
	case kind == '-':
		return refused(text), nil
	case kind == '$' && text == "-1":
		return nil, nil
	case kind == ':':
		return number(text, 1<<63-1)
	case kind == '$':
		return readBulk(from, text)
	case kind == '*':
		return readArray(from, text)
	}
	return nil, errNoReply
}

func readLine(from *bufio.Reader) (byte, string, error) {
	line, err := from.ReadSlice('\n')
	if err != nil && !errors.Is(err, bufio.ErrBufferFull) {
		return 0, "", err
	}
	end := len(line) - 2
	if err != nil || end < 1 || end > lineMax || line[end] != '\r' {
		return 0, "", errNoReply
	}
	return line[0], string(line[1:end]), nil
}

func readBulk(from *bufio.Reader, text string) ([]byte, error) {
	size, err := number(text, valueMax)
	if err != nil {
		return nil, err
	}
	value := make([]byte, size+2)
	if _, err := io.ReadFull(from, value); err != nil {
		return nil, err
	}
	if string(value[size:]) != "\r\n" {
		return nil, errNoReply
	}
	return value[:size:size], nil
}

func readArray(from *bufio.Reader, text string) ([][]byte, error) {
	count, err := number(text, 2*pairsMax)
	if err != nil {
		return nil, err
	}
	parts := make([][]byte, count)
	for at := range parts {
		kind, text, err := readLine(from)
		if err != nil {
			return nil, err
		}
		if kind != '$' {
			return nil, errNoReply
		}
		if parts[at], err = readBulk(from, text); err != nil {
			return nil, err
		}
	}
	return parts, nil
}

func number(text string, most int64) (int64, error) {
	found, err := strconv.ParseUint(text, 10, 63)
	if err != nil || int64(found) > most {
		return 0, errNoReply
	}
	return int64(found), nil
}

// After gives the least key above this one, and whether there is one.
func After(key string) (string, bool) {
	if len(key) < keyMax {
		return key + "\x00", true
	}
	return EndOfPrefix(key)
}

// EndOfPrefix gives the least key above all that begin with the prefix, and whether there is one.
func EndOfPrefix(prefix string) (string, bool) {
	for end := len(prefix); end > 0; end-- {
		if last := prefix[end-1]; last != 0xff {
			return prefix[:end-1] + string([]byte{last + 1}), true
		}
	}
	return "", false
}
