// Several workers add to one counter, each addition once: counter PORT COUNTER WORKERS TIMES.
package main

import (
	"fmt"
	"log"
	"os"
	"strconv"
	"sync"
	"sync/atomic"

	"github.com/gomodule/redigo/redis"
)

func main() {
	store, counter := NewStore("127.0.0.1:"+os.Args[1], 64), os.Args[2]
	workers, _ := strconv.Atoi(os.Args[3])
	times, _ := strconv.Atoi(os.Args[4])
	var added, tries int64
	var all sync.WaitGroup
	for worker := 0; worker < workers; worker++ {
		all.Add(1)
		go func(worker int) {
			defer all.Done()
			for turn := 0; turn < times; turn++ {
				isNew, err := store.Once(fmt.Sprintf("%s.%d.%d", counter, worker, turn), func(session redis.Conn) error {
					atomic.AddInt64(&tries, 1)
					count, err := redis.Int(session.Do("GET", counter))
					if err == nil || err == redis.ErrNil {
						_, err = session.Do("SET", counter, count+1)
					}
					return err
				})
				if err != nil {
					log.Fatal(err)
				}
				if isNew {
					atomic.AddInt64(&added, 1)
				}
			}
		}(worker)
	}
	all.Wait()
	var count int
	err := store.Transact(func(session redis.Conn) (err error) {
		count, err = redis.Int(session.Do("GET", counter))
		return err
	})
	if err != nil {
		log.Fatal(err)
	}
	fmt.Printf("added %d, counter %d\ntries %d\n", added, count, tries)
}
