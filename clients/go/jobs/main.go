// The jobs of harness/packages.py: `jobs ADDRESS JOB WORDS..`.
package main

import (
	"context"
	"errors"
	"fmt"
	"os"
	"strconv"
	"strings"
	"sync"
	"sync/atomic"
	"time"

	"ssikvd"
)

var (
	background = context.Background()
	errRaised  = errors.New("raised")
)

func must[T any](value T, err error) T {
	if err != nil {
		fmt.Fprintln(os.Stderr, err)
		os.Exit(1)
	}
	return value
}

func shown(err error) string {
	switch found := err.(type) {
	case nil:
		return "done"
	case ssikvd.Conflict:
		if found.Key != nil {
			return fmt.Sprintf("Conflict key %x", found.Key)
		}
		return "Conflict pivot " + found.Pivot
	case ssikvd.Full:
		return "Full " + found.Limit
	case ssikvd.Refused:
		return "Refused " + found.Text
	case ssikvd.Stopped, ssikvd.Lost, ssikvd.Unreachable, ssikvd.Invalid:
		return strings.TrimPrefix(fmt.Sprintf("%T", err), "ssikvd.")
	}
	return "Raised"
}

func number(word string) int { return must(strconv.Atoi(word)) }

func numberIn(value []byte) int {
	if value == nil {
		return 0
	}
	return number(string(value))
}

func patient(address string) *ssikvd.Store {
	return must(ssikvd.Connect(address, ssikvd.Options{Deadline: time.Minute}))
}

func together(workers int, work func(int)) {
	var all sync.WaitGroup
	for worker := 0; worker < workers; worker++ {
		all.Add(1)
		go func(worker int) {
			defer all.Done()
			work(worker)
		}(worker)
	}
	all.Wait()
}

func count(address, name string, workers, times int) {
	store, tries := patient(address), int64(0)
	add := func(t *ssikvd.Transaction) ([]byte, error) {
		atomic.AddInt64(&tries, 1)
		value, err := t.Get(name)
		if err != nil {
			return nil, err
		}
		return []byte{}, t.Set(name, []byte(strconv.Itoa(numberIn(value)+1)))
	}
	together(workers, func(worker int) {
		for turn := 0; turn < times; turn++ {
			must(store.Once(background, fmt.Sprintf("%s:%d:%d", name, worker, turn), add))
		}
	})
	var found []byte
	must(0, store.Transact(background, func(t *ssikvd.Transaction) (err error) {
		found, err = t.Get(name)
		return err
	}))
	fmt.Printf("counter %d tries %d\n", numberIn(found), tries)
}

func book(t *ssikvd.Transaction, room string, worker, turn int) ([]byte, error) {
	start := (13*worker + 7*turn) % 60
	end := start + 1 + (worker+turn)%5
	next := t.Range(fmt.Sprintf("%s:%03d", room, start+1), room+";", 1)
	if next.Next() && number(strings.Fields(string(next.Value))[0]) < end {
		return []byte("taken"), nil
	}
	if next.Err() != nil {
		return nil, next.Err()
	}
	return []byte("booked"), t.Set(fmt.Sprintf("%s:%03d", room, end), []byte(fmt.Sprint(start, worker, turn)))
}

func reserve(address, room string, workers, times int) {
	store := patient(address)
	together(workers, func(worker int) {
		for turn := 0; turn < times; turn++ {
			found := must(store.Once(background, fmt.Sprintf("by:%s:%d:%d", room, worker, turn), func(t *ssikvd.Transaction) ([]byte, error) {
				return book(t, room, worker, turn)
			}))
			fmt.Printf("%d %d %s\n", worker, turn, found)
		}
	})
}

func walk(address string, most int) {
	store, at, isMore, total, sum := patient(address), "\x00", true, 0, uint64(0)
	for isMore {
		count, last, after := 0, "", uint64(0)
		must(0, store.Transact(background, func(t *ssikvd.Transaction) error {
			count, after = 0, sum
			pairs := t.Range(at, "", most)
			for ; pairs.Next(); count++ {
				for _, each := range []byte(pairs.Key + string(pairs.Value)) {
					after = (31*after + uint64(each)) % 1_000_000_007
				}
				last = pairs.Key
			}
			return pairs.Err()
		}))
		total, sum, isMore = total+count, after, count == most
		if isMore {
			at, isMore = ssikvd.After(last)
		}
	}
	fmt.Printf("pairs %d sum %d\n", total, sum)
}

func failures(address string) {
	store := must(ssikvd.Connect(address, ssikvd.Options{Deadline: -1}))
	small := must(ssikvd.Connect(address, ssikvd.Options{Deadline: -1, Connections: 1}))
	tell := func(what string, in *ssikvd.Store, work func(*ssikvd.Transaction) error) {
		fmt.Printf("%s: %s\n", what, shown(in.Transact(background, work)))
	}
	get := func(key string) func(*ssikvd.Transaction) error {
		return func(t *ssikvd.Transaction) error {
			_, err := t.Get(key)
			return err
		}
	}
	set := func(key, value string) func(*ssikvd.Transaction) error {
		return func(t *ssikvd.Transaction) error { return t.Set(key, []byte(value)) }
	}
	crossing := func(read, written string) func(*ssikvd.Transaction) error {
		return func(t *ssikvd.Transaction) error {
			if err := get(read)(t); err != nil {
				return err
			}
			return set(written, "1")(t)
		}
	}
	many := func(count int, work func(string) func(*ssikvd.Transaction) error) func(*ssikvd.Transaction) error {
		return func(t *ssikvd.Transaction) (err error) {
			for at := 0; at < count && err == nil; at++ {
				err = work(strconv.Itoa(at))(t)
			}
			return err
		}
	}
	then := func(first, second func(*ssikvd.Transaction) error) func(*ssikvd.Transaction) error {
		return func(t *ssikvd.Transaction) error {
			if err := first(t); err != nil {
				return err
			}
			return store.Transact(background, second)
		}
	}
	tell("overwritten", store, then(set("k", "1"), set("k", "2")))
	tell("pivot", store, then(crossing("x", "y"), crossing("y", "x")))
	tell("writes", store, many(65, func(key string) func(*ssikvd.Transaction) error { return set("w"+key, "") }))
	tell("marks", store, many(257, func(key string) func(*ssikvd.Transaction) error { return get("m" + key) }))
	tell("connections", small, func(*ssikvd.Transaction) error { return small.Transact(background, get("k")) })
	tell("empty key", store, get(""))
	tell("long key", store, get(strings.Repeat("a", 257)))
	tell("long value", store, set("a", strings.Repeat("a", 16_385)))
	tell("zero limit", store, func(t *ssikvd.Transaction) error {
		pairs := t.Range("", "", 0)
		pairs.Next()
		return pairs.Err()
	})
	var kept *ssikvd.Transaction
	must(0, store.Transact(background, func(t *ssikvd.Transaction) error { kept = t; return nil }))
	fmt.Println("ended:", shown(get("k")(kept)))
	tell("raised", store, func(t *ssikvd.Transaction) error {
		must(0, t.Set("raised", []byte("1")))
		return errRaised
	})
	must(0, store.Transact(background, func(t *ssikvd.Transaction) error {
		value, err := t.Get("raised")
		fmt.Println("after it:", map[bool]string{true: "none", false: "kept"}[value == nil])
		return err
	}))
	store.Close()
	tell("closed", store, get("k"))
}

func attempt(address, deadline, reply string, work func(*ssikvd.Store) (string, error)) {
	seconds := func(word string) time.Duration { return must(time.ParseDuration(word + "s")) }
	options := ssikvd.Options{Deadline: seconds(deadline), ReplyTimeout: seconds(reply)}
	if options.Deadline == 0 {
		options.Deadline = -1
	}
	store, err := ssikvd.Connect(address, options)
	text := ""
	if err == nil {
		text, err = work(store)
	}
	if err != nil {
		text = shown(err)
	}
	fmt.Println(text)
}

func main() {
	address, job, words := os.Args[1], os.Args[2], os.Args[3:]
	switch job {
	case "count":
		count(address, words[0], number(words[1]), number(words[2]))
	case "reserve":
		reserve(address, words[0], number(words[1]), number(words[2]))
	case "walk":
		walk(address, number(words[0]))
	case "errors":
		failures(address)
	case "set":
		attempt(address, words[2], words[3], func(store *ssikvd.Store) (string, error) {
			return "done", store.Transact(background, func(t *ssikvd.Transaction) error { return t.Set(words[0], []byte(words[1])) })
		})
	case "once":
		attempt(address, words[1], words[2], func(store *ssikvd.Store) (string, error) {
			found, err := store.Once(background, words[0], func(*ssikvd.Transaction) ([]byte, error) { return []byte("made"), nil })
			return string(found), err
		})
	}
}
