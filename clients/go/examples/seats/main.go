// Seats is a web application that reserves seats, over net/http: `go run ./examples/seats ADDRESS PORT`. From a shell:
//
//	curl -d name=ann -H 'Idempotency-Key: 1' http://127.0.0.1:PORT/seats/3B
//
//	GET  /seats          200: each seat, `free` or `taken`, as one state of the store
//	POST /seats/SEAT     reserves the seat for the form's `name`; the header `Idempotency-Key` names the request, and is new for each
//	                     201: it is reserved. 409: it is taken. 404: there is no such seat. 400: no name, or no key.
//	                     422: the key came before with another seat or name
//
// Whoever repeats a request with its key gets the answer that the first one got, and no second seat. Either may answer also
//
//	503    with Retry-After: the store is full, stopped or not to be reached, or conflicts went on until the deadline. Nothing was
//	       written
//	504    it isn't known whether the seat is reserved: repeat the request with the same key, and tell nobody that it failed
//
// Keys: `seat:SEAT` holds the name, and isn't there while the seat is free. `done:KEY` holds the status that was answered, the seat and the
// name; delete it once nobody repeats the request any more.
package main

import (
	"encoding/json"
	"errors"
	"fmt"
	"log"
	"net"
	"net/http"
	"os"
	"strings"
	"time"

	"ssikvd"
)

const (
	bytesMax    = 100 // of a name, and of an idempotency key
	formMax     = 4_096
	connections = 16              // those of all processes together should be at most 64
	deadline    = 2 * time.Second // that a visitor waits, before there is a page that says so
	patience    = 10 * time.Second
)

// application answers requests over a store, which the goroutines of net/http share: each has a connection for as long as its transaction
// runs.
type application struct{ store *ssikvd.Store }

// answer is one that isn't a page.
type answer struct {
	status int
	text   string
}

func (a answer) Error() string { return a.text }

// allFree gives each seat there is, as `free`.
func allFree() map[string]string {
	seats := map[string]string{}
	for row := 1; row <= 10; row++ {
		for _, place := range "ABCDEF" {
			seats[fmt.Sprintf("%d%c", row, place)] = "free"
		}
	}
	return seats
}

// reserve reserves the seat, unless it is taken. It gives the status to answer, and what was asked.
func reserve(t *ssikvd.Transaction, seat, name string) ([]byte, error) {
	holder, err := t.Get("seat:" + seat)
	if err != nil {
		return nil, err
	}
	if holder != nil {
		return []byte("409 " + seat + " " + name), nil
	}
	return []byte("201 " + seat + " " + name), t.Set("seat:"+seat, []byte(name))
}

// list gives each seat, `free` or `taken`.
func (a application) list(r *http.Request) (int, any, error) {
	var seats map[string]string
	err := a.store.Transact(r.Context(), func(t *ssikvd.Transaction) error {
		seats = allFree()
		taken := t.Range("seat:", "seat;", ssikvd.All)
		for taken.Next() {
			seats[strings.TrimPrefix(taken.Key, "seat:")] = "taken"
		}
		return taken.Err()
	})
	return http.StatusOK, seats, err
}

func (a application) post(r *http.Request, seat string) (int, any, error) {
	if err := r.ParseForm(); errors.As(err, new(*http.MaxBytesError)) {
		return 0, nil, answer{http.StatusRequestEntityTooLarge, "The form is too long."}
	} else if err != nil {
		return 0, nil, answer{http.StatusBadRequest, "This is no form."}
	}
	key, name := r.Header.Get("Idempotency-Key"), r.PostForm.Get("name")
	if allFree()[seat] == "" {
		return 0, nil, answer{http.StatusNotFound, "There is no such seat."}
	}
	if key == "" || len(key) > bytesMax || name == "" || len(name) > bytesMax {
		text := fmt.Sprintf("An Idempotency-Key and a name are needed, each of at most %d bytes.", bytesMax)
		return 0, nil, answer{http.StatusBadRequest, text}
	}
	found, err := a.store.Once(r.Context(), "done:"+key, func(t *ssikvd.Transaction) ([]byte, error) { return reserve(t, seat, name) })
	switch {
	case err != nil:
		return 0, nil, err
	case string(found) == "201 "+seat+" "+name:
		return http.StatusCreated, map[string]string{"seat": seat, "name": name}, nil
	case string(found) == "409 "+seat+" "+name:
		return 0, nil, answer{http.StatusConflict, "The seat is taken."}
	}
	return 0, nil, answer{http.StatusUnprocessableEntity, "This Idempotency-Key came before with another seat or name."}
}

// page gives the status and the value of a page. The error is an answer in place of it, or one of the store.
func (a application) page(r *http.Request) (int, any, error) {
	seat := strings.TrimPrefix(r.URL.Path, "/seats/")
	switch {
	case r.Method == http.MethodGet && r.URL.Path == "/seats":
		return a.list(r)
	case r.Method == http.MethodPost && seat != r.URL.Path:
		return a.post(r, seat)
	}
	return 0, nil, answer{http.StatusNotFound, "There is no such page."}
}

// answerTo gives what to answer in place of a page. Invalid and Refused are faults of this program, as is all else.
func answerTo(err error) answer {
	switch found := err.(type) {
	case answer:
		return found
	case ssikvd.Lost:
		return answer{http.StatusGatewayTimeout, "It isn't known whether this was done. Repeat it with the same Idempotency-Key."}
	case ssikvd.Conflict, ssikvd.Full, ssikvd.Stopped, ssikvd.Unreachable:
		return answer{http.StatusServiceUnavailable, "Nothing was done. Repeat the request later."}
	}
	return answer{http.StatusInternalServerError, "This program has a fault."}
}

func (a application) ServeHTTP(w http.ResponseWriter, r *http.Request) {
	r.Body = http.MaxBytesReader(w, r.Body, formMax)
	status, page, err := a.page(r)
	if err == nil {
		w.Header().Set("Content-Type", "application/json")
		w.WriteHeader(status)
		json.NewEncoder(w).Encode(page)
		return
	}
	instead := answerTo(err)
	if instead.status >= 500 {
		log.Print(err)
	}
	if instead.status == http.StatusServiceUnavailable {
		w.Header().Set("Retry-After", "1")
	}
	http.Error(w, instead.text, instead.status)
}

func main() {
	options := ssikvd.Options{Connections: connections, ConnectTimeout: time.Second, ReplyTimeout: deadline, Deadline: deadline}
	store, err := ssikvd.Connect(os.Args[1], options)
	if err != nil {
		log.Fatal(err)
	}
	listener, err := net.Listen("tcp", "127.0.0.1:"+os.Args[2])
	if err != nil {
		log.Fatal(err)
	}
	fmt.Println("listening", listener.Addr())
	server := http.Server{Handler: application{store}, ReadTimeout: patience, WriteTimeout: patience}
	log.Fatal(server.Serve(listener))
}
