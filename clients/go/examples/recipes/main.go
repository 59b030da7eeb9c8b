// The recipes of docs/COOKBOOK.md: `recipes ADDRESS CALL WORDS..`. Without a call it takes calls from its input, one in each line.
//
// Each function that takes a transaction is part of a work of Transact, and may run more than once.
package main

import (
	"bufio"
	"bytes"
	"context"
	"encoding/binary"
	"encoding/hex"
	"fmt"
	"log"
	"math/rand"
	"os"
	"strconv"
	"strings"
	"time"

	"ssikvd"
)

// Keys of several parts

const (
	integerTag = 1
	textTag    = 2
)

// key gives the key of these parts, int64 or string. Where two keys differ in a part, the first such part decides which is the lesser.
func key(parts ...any) string {
	made := []byte{}
	for _, part := range parts {
		switch part := part.(type) {
		case int64:
			made = appendInteger(made, part)
		case string:
			made = appendText(made, part)
		default:
			panic(fmt.Sprintf("a part is an int64 or a string, this one a %T", part))
		}
	}
	return string(made)
}

// appendInteger appends eight bytes, the greatest first. With 2^63 added, the negative ones come before zero.
func appendInteger(made []byte, number int64) []byte {
	return binary.BigEndian.AppendUint64(append(made, integerTag), uint64(number)^1<<63)
}

// appendText appends the text and an end that is less than all that may follow. A zero byte in the text is written as 0, 255; the end is 0, 1.
func appendText(made []byte, text string) []byte {
	made = append(append(made, textTag), strings.ReplaceAll(text, "\x00", "\x00\xff")...)
	return append(made, 0, 1)
}

// partsOf gives the parts of a key.
func partsOf(key string) (parts []any) {
	for len(key) > 0 {
		if key[0] == integerTag {
			parts = append(parts, int64(binary.BigEndian.Uint64([]byte(key[1:9]))^1<<63))
			key = key[9:]
			continue
		}
		text, rest, _ := strings.Cut(key[1:], "\x00\x01")
		parts = append(parts, strings.ReplaceAll(text, "\x00\xff", "\x00"))
		key = rest
	}
	return parts
}

// under gives the bounds of a range over all keys whose first parts are these.
func under(parts ...any) (lo, hi string) {
	lo = key(parts...)
	hi, _ = ssikvd.EndOfPrefix(lo)
	return lo, hi
}

type pair struct {
	key   string
	value []byte
}

// all gives the pairs of a range.
func all(pairs *ssikvd.Pairs) (found []pair, err error) {
	for pairs.Next() {
		found = append(found, pair{pairs.Key, pairs.Value})
	}
	return found, pairs.Err()
}

// number gives that in a value, and 0 where there is none.
func number(value []byte, err error) (int64, error) {
	if err != nil || value == nil {
		return 0, err
	}
	return strconv.ParseInt(string(value), 10, 64)
}

func decimal(number int64) []byte { return strconv.AppendInt(nil, number, 10) }

// timeAndName gives the two parts of a value that begins with a time.
func timeAndName(value []byte) (int64, string, error) {
	time, name, _ := bytes.Cut(value, []byte(" "))
	found, err := number(time, nil)
	return found, string(name), err
}

// Reservations

// holder gives who has the room at some moment from the start up to the end; empty where nobody has.
func holder(t *ssikvd.Transaction, room string, start, end int64) (string, error) {
	_, endOfRoom := under("booking", room)
	first, err := all(t.Range(key("booking", room, start+1), endOfRoom, 1)) // the first booking that ends after the start
	if err != nil || len(first) == 0 {
		return "", err
	}
	begin, who, err := timeAndName(first[0].value)
	if begin >= end {
		who = ""
	}
	return who, err
}

// book books the room, unless someone has it then. It gives who had it.
func book(t *ssikvd.Transaction, room string, start, end int64, who string) (string, error) {
	other, err := holder(t, room, start, end)
	if err == nil && other == "" {
		err = t.Set(key("booking", room, end), []byte(fmt.Sprint(start, " ", who)))
	}
	return other, err
}

// A unique address

// register gives the user the address in place of the one before, unless another has it. Did it?
func register(t *ssikvd.Transaction, user, address string) (bool, error) {
	owner, err := t.Get(key("address", address))
	if err != nil || owner != nil && string(owner) != user {
		return false, err
	}
	old, err := t.Get(key("user", user))
	if err == nil && old != nil {
		err = t.Delete(key("address", string(old)))
	}
	if err == nil {
		err = t.Set(key("address", address), []byte(user))
	}
	if err == nil {
		err = t.Set(key("user", user), []byte(address))
	}
	return true, err
}

// An index

// put writes the state of the task, and its entry in the index in place of the one before.
func put(t *ssikvd.Transaction, task, state string) error {
	old, err := t.Get(key("task", task))
	if err == nil && old != nil {
		err = t.Delete(key("by state", string(old), task))
	}
	if err == nil {
		err = t.Set(key("task", task), []byte(state))
	}
	if err == nil {
		err = t.Set(key("by state", state, task), nil)
	}
	return err
}

// withState gives the tasks in this state, by rising name.
func withState(t *ssikvd.Transaction, state string) (tasks []string, err error) {
	lo, hi := under("by state", state)
	found, err := all(t.Range(lo, hi, ssikvd.All))
	for _, entry := range found {
		tasks = append(tasks, partsOf(entry.key)[2].(string))
	}
	return tasks, err
}

// Holds that expire. The store has no clock: each program passes its own, in whole seconds.

const sweptMax = 32 // of two writes each, which makes the 64 of a transaction

// held gives when the hold of the seat ends, and whose it is; an empty name where there is none, swept or not.
func held(t *ssikvd.Transaction, seat string) (ends int64, who string, err error) {
	value, err := t.Get(key("hold", seat))
	if err != nil || value == nil {
		return 0, "", err
	}
	return timeAndName(value)
}

func drop(t *ssikvd.Transaction, seat string, ends int64) error {
	if err := t.Delete(key("hold", seat)); err != nil {
		return err
	}
	return t.Delete(key("ends", ends, seat))
}

// hold holds the seat, unless it is sold or held by someone. Did it?
func hold(t *ssikvd.Transaction, seat, who string, now, seconds int64) (bool, error) {
	if sold, err := t.Get(key("sold", seat)); err != nil || sold != nil {
		return false, err
	}
	ends, other, err := held(t, seat)
	if err != nil || other != "" && ends > now {
		return false, err
	}
	if other != "" {
		err = drop(t, seat, ends) // its time is over, and no sweep has come by
	}
	if err == nil {
		err = t.Set(key("hold", seat), []byte(fmt.Sprint(now+seconds, " ", who)))
	}
	if err == nil {
		err = t.Set(key("ends", now+seconds, seat), nil)
	}
	return true, err
}

// buy sells the seat to the one that holds it. Did it?
func buy(t *ssikvd.Transaction, seat, who string, now int64) (bool, error) {
	ends, other, err := held(t, seat)
	if err != nil || other != who || ends <= now {
		return false, err
	}
	if err := drop(t, seat, ends); err != nil {
		return false, err
	}
	return true, t.Set(key("sold", seat), []byte(who))
}

// sweep drops holds whose time is over, the oldest first, and gives how many. Where it is sweptMax, there may be more.
func sweep(t *ssikvd.Transaction, now int64) (int, error) {
	found, err := all(t.Range(key("ends"), key("ends", now+1), sweptMax))
	for at := 0; at < len(found) && err == nil; at++ {
		parts := partsOf(found[at].key)
		err = drop(t, parts[2].(string), parts[1].(int64))
	}
	return len(found), err
}

// A queue

// enqueue sets the job at the tail. No two jobs of one producer have the same time.
func enqueue(t *ssikvd.Transaction, job string, at, producer int64) error {
	return t.Set(key("job", at, producer), []byte(job))
}

// take deletes the job at the head and gives it; nil where there is none.
func take(t *ssikvd.Transaction) ([]byte, error) {
	lo, hi := under("job")
	head, err := all(t.Range(lo, hi, 1))
	if err != nil || len(head) == 0 {
		return nil, err
	}
	return head[0].value, t.Delete(head[0].key)
}

// takeNear takes one of the first jobs by chance. It looks in a transaction of its own, so two clients meet only where they choose the same one.
func takeNear(ctx context.Context, store *ssikvd.Store, width int) (job []byte, err error) {
	lo, hi := under("job")
	for err == nil && job == nil {
		var near []pair
		err = store.Transact(ctx, func(t *ssikvd.Transaction) (err error) {
			near, err = all(t.Range(lo, hi, width))
			return err
		})
		if err != nil || len(near) == 0 {
			return nil, err
		}
		place := near[rand.Intn(len(near))].key
		err = store.Transact(ctx, func(t *ssikvd.Transaction) (err error) {
			job, err = remove(t, place)
			return err
		})
	}
	return job, err
}

// remove deletes the job at this key and gives it; nil where another took it.
func remove(t *ssikvd.Transaction, place string) ([]byte, error) {
	job, err := t.Get(place)
	if err != nil || job == nil {
		return nil, err
	}
	return job, t.Delete(place)
}

// A counter with many writers

// add adds to the number at this key: that of the counter, or of the counter and a writer.
func add(t *ssikvd.Transaction, place string, amount int64) error {
	found, err := number(t.Get(place))
	if err != nil {
		return err
	}
	return t.Set(place, decimal(found+amount))
}

// total gives the sum over the counter's key and those of its writers.
func total(t *ssikvd.Transaction, counter string) (sum int64, err error) {
	lo, hi := under(counter)
	found, err := all(t.Range(lo, hi, ssikvd.All))
	for at := 0; at < len(found) && err == nil; at++ {
		var one int64
		one, err = number(found[at].value, nil)
		sum += one
	}
	return sum, err
}

// More than 64 writes. Versions are integers above 0, each greater than the one before.

const stepMax = 62 // with the mark of how far it is, and the current version, 64 writes

type item struct{ name, value string }

// current gives the version of the list that is read now; 0 where there is none.
func current(t *ssikvd.Transaction, name string) (int64, error) {
	return number(t.Get(key("current", name)))
}

// step writes the next items of a version, and how far it is; at last also that it is the current one. Is there more to write?
func step(t *ssikvd.Transaction, name string, version int64, items []item) (bool, error) {
	mark := key("written", name, version)
	written, err := number(t.Get(mark))
	done, end := int(written), int(written)+stepMax
	if end > len(items) {
		end = len(items)
	}
	for ; done < end && err == nil; done++ {
		err = t.Set(key("item", name, version, items[done].name), []byte(items[done].value))
	}
	if err == nil {
		err = t.Set(mark, decimal(int64(end)))
	}
	if err != nil || end < len(items) {
		return true, err
	}
	before, err := current(t, name)
	if err == nil && version > before {
		err = t.Set(key("current", name), decimal(version))
	}
	return false, err
}

// load writes a version in several transactions. If it is interrupted, run it again with the same items: it goes on where it was.
func load(ctx context.Context, store *ssikvd.Store, name string, version int64, items []item) (err error) {
	for isMore := true; isMore && err == nil; {
		err = store.Transact(ctx, func(t *ssikvd.Transaction) (err error) {
			isMore, err = step(t, name, version, items)
			return err
		})
	}
	return err
}

// read gives the items of the current version and their values.
func read(t *ssikvd.Transaction, name string) (items []item, err error) {
	version, err := current(t, name)
	if err != nil {
		return nil, err
	}
	lo, hi := under("item", name, version)
	found, err := all(t.Range(lo, hi, ssikvd.All))
	for _, each := range found {
		items = append(items, item{partsOf(each.key)[3].(string), string(each.value)})
	}
	return items, err
}

// clear deletes up to 64 items of versions before the current one, and gives how many.
func clear(t *ssikvd.Transaction, name string) (int, error) {
	version, err := current(t, name)
	if err != nil {
		return 0, err
	}
	found, err := all(t.Range(key("item", name), key("item", name, version), 64))
	for at := 0; at < len(found) && err == nil; at++ {
		err = t.Delete(found[at].key)
	}
	return len(found), err
}

// The calls

func must[T any](value T, err error) T {
	if err != nil {
		log.Fatal(err)
	}
	return value
}

// run runs a work in a transaction, and gives what it gave once it is committed.
func run[T any](store *ssikvd.Store, work func(*ssikvd.Transaction) (T, error)) (made T) {
	err := store.Transact(context.Background(), func(t *ssikvd.Transaction) (err error) {
		made, err = work(t)
		return err
	})
	return must(made, err)
}

func integer(word string) int64 { return must(strconv.ParseInt(word, 10, 64)) }

// part gives a part of a key: an integer, bytes as 0x and hex digits, or a text.
func part(word string) any {
	if found, err := strconv.ParseInt(word, 10, 64); err == nil {
		return found
	}
	if strings.HasPrefix(word, "0x") {
		return string(must(hex.DecodeString(word[2:])))
	}
	return word
}

func parts(words []string) (found []any) {
	for _, word := range words {
		found = append(found, part(word))
	}
	return found
}

func shown(part any) string {
	if text, isText := part.(string); isText {
		return "0x" + hex.EncodeToString([]byte(text))
	}
	return fmt.Sprint(part)
}

func joined[T any](all []T, shown func(T) string) string {
	words := []string{}
	for _, each := range all {
		words = append(words, shown(each))
	}
	return strings.Join(words, " ")
}

// or gives the word at this place as an integer, or else the other.
func or(words []string, at int, other int64) int64 {
	if len(words) > at {
		return integer(words[at])
	}
	return other
}

func either(is bool, yes, no string) string {
	if is {
		return yes
	}
	return no
}

func jobOf(found []byte) string { return either(found == nil, "none", string(found)) }

func itemsOf(words []string) (items []item) {
	for _, word := range words {
		name, value, _ := strings.Cut(word, "=")
		items = append(items, item{name, value})
	}
	return items
}

// answer gives what a call gives, in one line.
func answer(store *ssikvd.Store, call string, words []string) string {
	type t = *ssikvd.Transaction
	now := time.Now()
	switch call {
	case "key":
		return hex.EncodeToString([]byte(key(parts(words)...)))
	case "parts":
		return joined(partsOf(string(must(hex.DecodeString(words[0])))), shown)
	case "book":
		other := run(store, func(t t) (string, error) { return book(t, words[0], integer(words[1]), integer(words[2]), words[3]) })
		return either(other == "", "booked", other+" has it")
	case "register":
		return either(run(store, func(t t) (bool, error) { return register(t, words[0], words[1]) }), "registered", "another has it")
	case "put":
		return run(store, func(t t) (string, error) { return "done", put(t, words[0], words[1]) })
	case "list":
		return strings.Join(run(store, func(t t) ([]string, error) { return withState(t, words[0]) }), " ")
	case "hold":
		at, seconds := or(words, 3, now.Unix()), integer(words[2])
		return either(run(store, func(t t) (bool, error) { return hold(t, words[0], words[1], at, seconds) }), "held", "not free")
	case "buy":
		return either(run(store, func(t t) (bool, error) { return buy(t, words[0], words[1], or(words, 2, now.Unix())) }), "sold", "not held")
	case "sweep":
		return fmt.Sprint(run(store, func(t t) (int, error) { return sweep(t, or(words, 0, now.Unix())) }), " dropped")
	case "enqueue":
		at, producer := or(words, 1, now.UnixNano()), or(words, 2, int64(os.Getpid()))
		return run(store, func(t t) (string, error) { return "done", enqueue(t, words[0], at, producer) })
	case "take":
		return jobOf(run(store, take))
	case "take_near":
		return jobOf(must(takeNear(context.Background(), store, int(integer(words[0])))))
	case "add":
		return run(store, func(t t) (string, error) { return "done", add(t, key(parts(words)...), 1) })
	case "total":
		return fmt.Sprint(run(store, func(t t) (int64, error) { return total(t, words[0]) }))
	case "load":
		return must("done", load(context.Background(), store, words[0], integer(words[1]), itemsOf(words[2:])))
	case "show":
		items := run(store, func(t t) ([]item, error) { return read(t, words[0]) })
		return joined(items, func(each item) string { return each.name + "=" + each.value })
	case "clear":
		return fmt.Sprint(run(store, func(t t) (int, error) { return clear(t, words[0]) }), " deleted")
	}
	log.Fatal("no call is ", call)
	return ""
}

func main() {
	store := must(ssikvd.Connect(os.Args[1], ssikvd.Options{}))
	defer store.Close()
	if len(os.Args) > 2 {
		fmt.Println(answer(store, os.Args[2], os.Args[3:]))
		return
	}
	lines := bufio.NewReader(os.Stdin)
	for line, err := lines.ReadString('\n'); err == nil; line, err = lines.ReadString('\n') {
		words := strings.Split(strings.TrimSuffix(line, "\n"), " ")
		fmt.Println(answer(store, words[0], words[1:]))
	}
}
