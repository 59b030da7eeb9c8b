// Package ssikvd is a client of ssikvd, an ordered key-value store with strictly serializable transactions.
//
// Reads and writes stand inside Transact or Once alone: there is no auto-commit. A work may run more than once, so it does nothing but read and write
// through its transaction.
package ssikvd

import (
	"bufio"
	"context"
	"errors"
	"fmt"
	"math/rand"
	"net"
	"sync"
	"time"
)

// Version is that of the package and of the program.
const Version = "0.2.0"

// Options say how a store is used. Of a field that is zero the default holds.
type Options struct {
	Connections    int           // the most of the pool, 1 to 64, 16 by default: those of all programs together should be at most 64
	ConnectTimeout time.Duration // for opening one connection, 5 seconds by default
	ReplyTimeout   time.Duration // for one reply, 10 seconds by default
	Deadline       time.Duration // no try of a transaction begins later than this after the call, 30 seconds by default; below zero it has one try
}

func (o Options) withDefaults() Options {
	if o.Connections == 0 {
		o.Connections = 16
	}
	for at, field := range []*time.Duration{&o.ConnectTimeout, &o.ReplyTimeout, &o.Deadline} {
		if *field == 0 {
			*field = []time.Duration{5 * time.Second, 10 * time.Second, 30 * time.Second}[at]
		}
	}
	return o
}

// Store is a pool of connections, which goroutines may share.
type Store struct {
	address  string
	options  Options
	places   chan struct{} // one for each connection that is lent
	chance   *rand.Rand
	lock     sync.Mutex // of all below, and of chance
	idle     []*session
	isClosed bool
}

// Connect gives a store, once the server at HOST:PORT has answered. Errors: Unreachable where none does, Invalid.
func Connect(address string, options Options) (*Store, error) {
	options = options.withDefaults()
	if _, _, err := net.SplitHostPort(address); err != nil {
		return nil, Invalid{err.Error()}
	}
	if options.Connections < 1 || options.Connections > connectionsMax {
		return nil, Invalid{fmt.Sprintf("a pool has 1 to %d connections", connectionsMax)}
	}
	store := &Store{address: address, options: options, places: make(chan struct{}, options.Connections)}
	store.chance = rand.New(rand.NewSource(time.Now().UnixNano()))
	first, err := store.open()
	if err == nil {
		_, err = first.ask("PING")
		store.takeBack(first)
	}
	if err != nil {
		return nil, err
	}
	return store, nil
}

// Close closes the connections that are idle, and each other one at the end of its transaction. Later calls give Invalid.
func (s *Store) Close() error {
	s.lock.Lock()
	defer s.lock.Unlock()
	s.isClosed = true
	s.closeIdle()
	return nil
}

// Transact runs the work and commits.
//
// It begins again at a conflict, at `FULL transactions`, and where the connection was lost before COMMIT. What the work gives as an error of its own aborts
// the transaction and is given back. No try begins after the deadline, or after ctx is done: then the last try's error is given.
func (s *Store) Transact(ctx context.Context, work func(*Transaction) error) error {
	return s.tries(ctx).run(work)
}

// Once commits the work once for this key, however often it is called, and gives the bytes that the work gave then, which the store keeps as the key's value.
//
// Errors are those of Transact, and Lost where the outcome of a try isn't known.
func (s *Store) Once(ctx context.Context, key string, work func(*Transaction) ([]byte, error)) ([]byte, error) {
	tries, lost, found := s.tries(ctx), error(nil), []byte(nil)
	for {
		err := tries.run(func(t *Transaction) (err error) {
			if found, err = t.Get(key); err != nil || found != nil {
				return err
			}
			if found, err = work(t); err != nil {
				return err
			}
			return t.Set(key, found)
		})
		if errors.As(err, new(Lost)) {
			if lost = err; tries.wait(lost) == nil {
				continue
			}
		}
		if err != nil && lost != nil {
			return nil, lost
		}
		return found, err
	}
}

// tries are those of one call, none of which begins after its end.
type tries struct {
	store  *Store
	ctx    context.Context
	end    time.Time
	failed int
}

func (s *Store) tries(ctx context.Context) *tries {
	return &tries{s, ctx, time.Now().Add(s.options.Deadline), 0}
}

func (t *tries) run(work func(*Transaction) error) error {
	for t.ctx.Err() == nil {
		err := t.try(work)
		if err == nil || !beginsAgain(err) || t.wait(err) != nil {
			return err
		}
	}
	return t.ctx.Err()
}

// wait waits for a random time, so that two don't meet again and again. It gives the error where no time is left.
func (t *tries) wait(err error) error {
	most := time.Millisecond << t.failed
	if t.failed < 6 {
		t.failed++
	}
	t.store.lock.Lock()
	wait := time.Duration(t.store.chance.Int63n(int64(most)))
	t.store.lock.Unlock()
	if time.Now().Add(wait).After(t.end) {
		return err
	}
	select {
	case <-t.ctx.Done():
		return err
	case <-time.After(wait):
		return nil
	}
}

func (t *tries) try(work func(*Transaction) error) (err error) {
	lent, err := t.lend()
	if err != nil {
		return err
	}
	transaction, isOpen := &Transaction{lent, map[string]bool{}, map[string]bool{}}, false
	defer func() { // also where the work panics
		transaction.session = nil
		if isOpen {
			lent.ask("ABORT")
		}
		t.store.takeBack(lent)
		<-t.store.places
	}()
	if _, err = lent.ask("BEGIN"); err != nil {
		return err
	}
	isOpen = true
	if err = work(transaction); err != nil {
		return err
	}
	isOpen = false
	return lent.commit()
}

// lend gives a connection, once one is idle or there is room for one more.
func (t *tries) lend() (*session, error) {
	timer := time.NewTimer(time.Until(t.end))
	defer timer.Stop()
	select {
	case t.store.places <- struct{}{}:
	default:
		select {
		case t.store.places <- struct{}{}:
		case <-t.ctx.Done():
			return nil, Full{"connections"}
		case <-timer.C:
			return nil, Full{"connections"}
		}
	}
	found, err := t.store.take()
	if err != nil {
		<-t.store.places
	}
	return found, err
}

func (s *Store) take() (*session, error) {
	s.lock.Lock()
	isClosed, last := s.isClosed, len(s.idle)-1
	var found *session
	if !isClosed && last >= 0 {
		found, s.idle = s.idle[last], s.idle[:last]
	}
	s.lock.Unlock()
	if isClosed {
		return nil, Invalid{"the store is closed"}
	}
	if found != nil {
		return found, nil
	}
	return s.open()
}

func (s *Store) open() (*session, error) {
	connection, err := net.DialTimeout("tcp", s.address, s.options.ConnectTimeout)
	if err != nil {
		return nil, Unreachable{err}
	}
	return &session{connection, bufio.NewReader(connection), s.options.ReplyTimeout, true}, nil
}

// takeBack keeps the connection where it is whole. Else it is closed, and those that are idle with it.
func (s *Store) takeBack(lent *session) {
	s.lock.Lock()
	defer s.lock.Unlock()
	s.idle = append(s.idle, lent)
	if !lent.isWhole || s.isClosed {
		s.closeIdle()
	}
}

func (s *Store) closeIdle() {
	for _, each := range s.idle {
		each.connection.Close()
	}
	s.idle = nil
}
