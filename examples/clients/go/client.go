// A client of ssikvd over redigo (Debian: golang-github-gomodule-redigo-dev), which resends nothing by itself.
package main

import (
	"fmt"
	"math/rand"
	"strings"
	"time"

	"github.com/gomodule/redigo/redis"
)

// Store runs transactions over a pool of connections. Each is lent for one whole transaction.
type Store struct{ pool redis.Pool }

// NewStore has at most so many connections. All that a server is to serve, of all programs together, are at most 64.
func NewStore(address string, size int) *Store {
	rand.Seed(time.Now().UnixNano()) // Go before 1.20 draws the same numbers in each process
	patience := 30 * time.Second
	return &Store{redis.Pool{MaxActive: size, MaxIdle: size, Wait: true, Dial: func() (redis.Conn, error) {
		return redis.Dial("tcp", address, redis.DialReadTimeout(patience), redis.DialWriteTimeout(patience))
	}}}
}

// mayBeginAgain says whether this is a refusal after which the same transaction may be accepted.
func mayBeginAgain(err error) bool {
	refusal, isRefusal := err.(redis.Error)
	return isRefusal && (strings.HasPrefix(string(refusal), "CONFLICT") || refusal == "FULL transactions")
}

func wait(turn int) {
	if turn > 6 {
		turn = 6
	}
	time.Sleep(time.Duration(rand.Int63n(int64(time.Millisecond) << turn))) // random, so that two do not meet again and again
}

func (store *Store) try(work func(redis.Conn) error) error {
	session, isEnded := store.pool.Get(), false
	defer func() {
		if !isEnded {
			session.Do("ABORT") // else the next borrower would find the transaction open
		}
		session.Close()
	}()
	if _, err := session.Do("BEGIN"); err != nil {
		isEnded = true
		return err
	}
	if err := work(session); err != nil {
		return err
	}
	isEnded = true
	_, err := session.Do("COMMIT")
	return err
}

// Transact runs work in a transaction until COMMIT is answered a number. An error that is no redis.Error is a lost connection: if COMMIT
// was sent, its outcome is unknown.
func (store *Store) Transact(work func(redis.Conn) error) error {
	for turn := 0; turn < 1000; turn++ {
		if err := store.try(work); !mayBeginAgain(err) {
			return err
		}
		wait(turn)
	}
	return fmt.Errorf("refused 1000 times in a row")
}

// Once runs work in a transaction that commits once, though connections are lost. It says whether this call committed it.
func (store *Store) Once(name string, work func(redis.Conn) error) (isNew bool, err error) {
	for turn := 0; turn < 1000; turn++ {
		err = store.Transact(func(session redis.Conn) error {
			done, err := session.Do("GET", "done:"+name)
			if isNew = done == nil; err != nil || !isNew {
				return err
			}
			if err := work(session); err != nil {
				return err
			}
			_, err = session.Do("SET", "done:"+name, "")
			return err
		})
		if _, isRefusal := err.(redis.Error); err == nil || isRefusal {
			return isNew, err
		}
		wait(turn)
	}
	return false, err
}
