// Worker is a queue of jobs and its workers.
//
//	worker ADDRESS put MILLISECONDS ID..    enqueues a job for each ID, whose work is to wait so long; prints `put ID`
//	worker ADDRESS work NAME LEASE          does one job after another until it is ended; the lease is in milliseconds; prints
//	                                        `NAME took ID`, then `NAME did ID`, or `NAME late ID` where another took it since
//
// A worker has a job until its lease ends; then another may take it. So a worker may be killed at any moment, and its job is done again.
// Work outside the store is done at least once, and its result is written once. A lease is to be longer than the longest job: a worker that
// is late has worked in vain. A job that ends each of its workers comes back each time; whoever minds counts the tries in its value.
//
// The store has no clock. Times are those of the machines that put and take jobs, and the premise is that their clocks differ by
// far less than a lease. Where they differ by more, jobs are taken too late, or too early, so that their work is done twice. Even then no
// result is written twice: that is decided by the job's key, which moves on each time it is taken, and by no clock.
//
// Keys: `job:DUE:ID` holds the work; the job may be taken from DUE on, in milliseconds since 1970 with 15 digits. Taking it moves it to the
// end of the lease, and finishing it deletes it. `put:ID` and `done:ID` say that this came to pass, `done:ID` with the result; delete both
// in one transaction, once nobody puts this ID again. `finished:NAME` counts for each worker, so that workers don't meet in one key.
// A worker's name is its own: no two have the same.
package main

import (
	"context"
	"errors"
	"fmt"
	"log"
	"os"
	"strconv"
	"strings"
	"time"

	"ssikvd"
)

const (
	pauseMin = 10 * time.Millisecond
	pauseMax = 500 * time.Millisecond // that a worker waits at most before it looks for a job again
)

// errLate says that another worker has taken the job since.
var errLate = errors.New("another worker has the job")

// job is one that a worker has, while it stands at its place.
type job struct {
	place, id string
	payload   []byte
}

func keyOf(due int64, id string) string { return fmt.Sprintf("job:%015d:%s", due, id) }

// put enqueues the job, unless it was put before. It may be taken at once.
func put(ctx context.Context, store *ssikvd.Store, id, payload string) error {
	_, err := store.Once(ctx, "put:"+id, func(t *ssikvd.Transaction) ([]byte, error) {
		return []byte{}, t.Set(keyOf(time.Now().UnixMilli(), id), []byte(payload))
	})
	return err
}

// take takes the job that has been due for longest; nil where none is due.
//
// Of two workers that take the same at once, one is refused, and begins again.
func take(t *ssikvd.Transaction, lease time.Duration) (*job, error) {
	begun := time.Now() // in this try, so that the lease is whole
	due := t.Range("job:", keyOf(begun.UnixMilli(), ""), 1)
	if !due.Next() {
		return nil, due.Err()
	}
	id := strings.SplitN(due.Key, ":", 3)[2]
	taken := &job{keyOf(begun.Add(lease).UnixMilli(), id), id, due.Value}
	if err := t.Delete(due.Key); err != nil {
		return nil, err
	}
	return taken, t.Set(taken.place, taken.payload)
}

// finish writes the result, and deletes the job, unless another worker has taken it since. Did it?
func finish(ctx context.Context, store *ssikvd.Store, of *job, worker, result string) (bool, error) {
	found, err := store.Once(ctx, "done:"+of.id, func(t *ssikvd.Transaction) ([]byte, error) {
		payload, err := t.Get(of.place)
		if err != nil {
			return nil, err
		}
		if payload == nil {
			return nil, errLate
		}
		if err := t.Delete(of.place); err != nil {
			return nil, err
		}
		return []byte(result), addOne(t, "finished:"+worker)
	})
	if errors.Is(err, errLate) {
		return false, nil
	}
	return string(found) == result, err // it may hold the result of another
}

func addOne(t *ssikvd.Transaction, key string) error {
	value, err := t.Get(key)
	if err != nil {
		return err
	}
	count := 0
	if value != nil {
		if count, err = strconv.Atoi(string(value)); err != nil {
			return err
		}
	}
	return t.Set(key, []byte(strconv.Itoa(count+1)))
}

// do is the work itself. It may be done again after this worker has died, so it does no harm twice.
func do(of *job, worker string) (string, error) {
	milliseconds, err := strconv.Atoi(string(of.payload))
	time.Sleep(time.Duration(milliseconds) * time.Millisecond)
	return "done by " + worker, err
}

// workOnce takes a job and does it. Was there one?
func workOnce(ctx context.Context, store *ssikvd.Store, worker string, lease time.Duration) (bool, error) {
	var taken *job
	err := store.Transact(ctx, func(t *ssikvd.Transaction) (err error) {
		taken, err = take(t, lease)
		return err
	})
	if err != nil || taken == nil {
		return false, err
	}
	fmt.Println(worker, "took", taken.id)
	result, err := do(taken, worker)
	if err != nil {
		return true, err
	}
	isDone, err := finish(ctx, store, taken, worker, result)
	if err != nil {
		return true, err
	}
	if isDone {
		fmt.Println(worker, "did", taken.id)
	} else {
		fmt.Println(worker, "late", taken.id)
	}
	return true, nil
}

// work works until the process is ended, and looks less often while there is nothing to do. The error is a fault of this program.
func work(ctx context.Context, store *ssikvd.Store, worker string, lease time.Duration) error {
	pause := pauseMin
	for {
		hasWorked, err := workOnce(ctx, store, worker, lease)
		switch err.(type) {
		case nil:
		case ssikvd.Conflict, ssikvd.Full, ssikvd.Stopped, ssikvd.Unreachable, ssikvd.Lost:
			log.Print(worker, ": ", err) // a job that it may hold comes back once its lease has ended
			hasWorked = false
		default:
			return err
		}
		if hasWorked {
			pause = pauseMin
			continue
		}
		time.Sleep(pause)
		if pause *= 2; pause > pauseMax {
			pause = pauseMax
		}
	}
}

func run(ctx context.Context, address, what string, words []string) error {
	store, err := ssikvd.Connect(address, ssikvd.Options{Connections: 1})
	if err != nil {
		return err
	}
	defer store.Close()
	if what == "work" {
		lease, err := strconv.Atoi(words[1])
		if err != nil {
			return err
		}
		return work(ctx, store, words[0], time.Duration(lease)*time.Millisecond)
	}
	for _, id := range words[1:] {
		if err := put(ctx, store, id, words[0]); err != nil {
			return err
		}
		fmt.Println("put", id)
	}
	return nil
}

func main() {
	if err := run(context.Background(), os.Args[1], os.Args[2], os.Args[3:]); err != nil {
		log.Fatal(err)
	}
}
