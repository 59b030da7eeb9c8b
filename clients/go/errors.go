package ssikvd

import (
	"encoding/hex"
	"errors"
	"fmt"
	"strings"
)

// Conflict says that COMMIT met other commits, until the deadline: one has overwritten Key, or else Pivot is "self" or the number of a transaction that
// would be a pivot. Nothing was written.
type Conflict struct {
	Key   []byte
	Pivot string
}

// Full says which limit was met: transactions, writes, marks, log, numbers or connections. Nothing was written.
type Full struct{ Limit string }

// Stopped says that the store is stopped by a fault of its device. Nothing was written.
type Stopped struct{}

// Refused is another refusal of the server's: a fault of the program, or of this package.
type Refused struct{ Text string }

// Lost says that COMMIT was sent, and its outcome isn't known. Once with the same key settles it.
type Lost struct{ Cause error }

// Unreachable says that there was no connection, or one that was lost before COMMIT was sent. Nothing was written.
type Unreachable struct{ Cause error }

// Invalid is a call that breaks a limit or comes after the end. Nothing was sent.
type Invalid struct{ Text string }

func (e Conflict) Error() string {
	if e.Key != nil {
		return fmt.Sprintf("ssikvd: conflict: %q was overwritten", e.Key)
	}
	return "ssikvd: conflict: pivot " + e.Pivot
}
func (e Full) Error() string    { return "ssikvd: full: " + e.Limit }
func (e Stopped) Error() string { return "ssikvd: the store is stopped" }
func (e Refused) Error() string { return "ssikvd: refused: " + e.Text }
func (e Lost) Error() string {
	return fmt.Sprint("ssikvd: the outcome of COMMIT isn't known: ", e.Cause)
}
func (e Unreachable) Error() string { return fmt.Sprint("ssikvd: unreachable: ", e.Cause) }
func (e Invalid) Error() string     { return "ssikvd: invalid: " + e.Text }
func (e Lost) Unwrap() error        { return e.Cause }
func (e Unreachable) Unwrap() error { return e.Cause }

// refusal gives the error of a refusal.
func refusal(text string) error {
	words := strings.Split(text, " ")
	switch {
	case len(words) == 3 && words[0] == "CONFLICT" && words[1] == "overwritten":
		if key, err := hex.DecodeString(words[2]); err == nil && len(key) > 0 {
			return Conflict{Key: key}
		}
	case len(words) == 3 && words[0] == "CONFLICT" && words[1] == "pivot":
		return Conflict{Pivot: words[2]}
	case len(words) == 2 && words[0] == "FULL":
		return Full{words[1]}
	case text == "STORE stopped":
		return Stopped{}
	}
	return Refused{text}
}

// beginsAgain says whether a transaction begins again where this ended a try of it.
func beginsAgain(err error) bool {
	var full Full
	if errors.As(err, new(Lost)) { // whose cause may be one of those
		return false
	}
	return errors.As(err, new(Conflict)) || errors.As(err, new(Unreachable)) || errors.As(err, &full) && full.Limit == "transactions"
}
