package ssikvd

import (
	"bufio"
	"errors"
	"fmt"
	"net"
	"strconv"
	"time"
)

// session is a connection. It is whole while no reply is due; else it is of no more use.
type session struct {
	connection net.Conn
	received   *bufio.Reader
	timeout    time.Duration
	isWhole    bool
}

// ask sends one request and gives its reply. The error is its refusal, or Unreachable.
func (s *session) ask(parts ...string) (any, error) {
	if !s.isWhole {
		return nil, Unreachable{errors.New("the connection was lost")}
	}
	s.isWhole = false
	s.connection.SetDeadline(time.Now().Add(s.timeout))
	if _, err := s.connection.Write(encode(parts...)); err != nil {
		return nil, Unreachable{err}
	}
	reply, err := readReply(s.received)
	if err == nil && s.received.Buffered() > 0 {
		err = errNoReply
	}
	if err != nil {
		return nil, Unreachable{err}
	}
	s.isWhole = true
	if text, isRefused := reply.(refused); isRefused {
		return nil, refusal(string(text))
	}
	return reply, nil
}

// commit sends COMMIT. The error is its refusal, Unreachable before it is sent, or Lost where the outcome isn't known.
func (s *session) commit() error {
	wasWhole := s.isWhole
	_, err := s.ask("COMMIT")
	if _, isUnreachable := err.(Unreachable); isUnreachable && wasWhole || err == (Refused{"STORE fault"}) {
		return Lost{err}
	}
	return err
}

// Transaction is what the work of Transact reads and writes. Once it has ended, its calls give Invalid. It belongs to one goroutine.
type Transaction struct {
	session       *session
	written, read map[string]bool
}

func (t *Transaction) ask(parts ...string) (any, error) {
	if t.session == nil {
		return nil, Invalid{"the transaction has ended"}
	}
	return t.session.ask(parts...)
}

// note adds a key, of which there may be so many.
func note(keys map[string]bool, key string, most int, limit string) error {
	if !keys[key] && len(keys) == most {
		return Full{limit}
	}
	keys[key] = true
	return nil
}

func checkKey(key string, least int) error {
	if len(key) < least || len(key) > keyMax {
		return Invalid{fmt.Sprintf("a key has 1 to %d bytes, this one has %d", keyMax, len(key))}
	}
	return nil
}

// Get gives the value of the key, nil where it isn't there. Errors: Invalid, Full at the 257th new key, Unreachable.
func (t *Transaction) Get(key string) ([]byte, error) {
	if err := checkKey(key, 1); err != nil {
		return nil, err
	}
	if !t.written[key] {
		if err := note(t.read, key, marksMax, "marks"); err != nil {
			return nil, err
		}
	}
	reply, err := t.ask("GET", key)
	value, _ := reply.([]byte)
	return value, err
}

// Set writes the key. Errors: Invalid, Full at the 65th key that is written, Unreachable.
func (t *Transaction) Set(key string, value []byte) error {
	if len(value) > valueMax {
		return Invalid{fmt.Sprintf("a value has at most %d bytes, this one has %d", valueMax, len(value))}
	}
	return t.write(key, "SET", key, string(value))
}

// Delete deletes the key, whether it is there or not. Errors: those of Set.
func (t *Transaction) Delete(key string) error { return t.write(key, "DEL", key) }

func (t *Transaction) write(key string, request ...string) error {
	if err := checkKey(key, 1); err != nil {
		return err
	}
	if err := note(t.written, key, writesMax, "writes"); err != nil {
		return err
	}
	_, err := t.ask(request...)
	return err
}

// All is the limit of a range that has none.
const All = int(^uint(0) >> 1)

// Range gives the pairs with lo <= key < hi by rising key, at most limit; an empty hi is no upper end. They are asked page by page, as they are needed:
//
//	for pairs := t.Range("a", "b", ssikvd.All); pairs.Next(); {
//		use(pairs.Key, pairs.Value)
//	} // then pairs.Err()
func (t *Transaction) Range(lo, hi string, limit int) *Pairs {
	if lo == "" {
		lo = "\x00"
	}
	pairs := &Pairs{transaction: t, at: lo, hi: hi, left: limit, isMore: true}
	if pairs.err = checkKey(lo, 1); pairs.err == nil {
		pairs.err = checkKey(hi, 0)
	}
	if pairs.err == nil && limit < 1 {
		pairs.err = Invalid{fmt.Sprintf("a limit is at least 1, this one is %d", limit)}
	}
	return pairs
}

// Pairs are those of a range. Key and Value are those that Next has gone to.
type Pairs struct {
	Key         string
	Value       []byte
	transaction *Transaction
	at, hi      string
	left        int
	page        [][]byte
	isMore      bool
	err         error
}

// Err gives what ended the pairs before their end, if anything did.
func (p *Pairs) Err() error { return p.err }

// Next goes to the next pair, if there is one.
func (p *Pairs) Next() bool {
	if len(p.page) == 0 && p.err == nil {
		p.err = p.turn()
	}
	if p.err != nil || len(p.page) == 0 {
		return false
	}
	p.Key, p.Value, p.page = string(p.page[0]), p.page[1], p.page[2:]
	return true
}

// turn asks for the next page, if there is one.
func (p *Pairs) turn() error {
	if !p.isMore || p.left == 0 || p.hi != "" && p.at >= p.hi {
		return nil
	}
	size := pairsMax
	if p.left < size {
		size = p.left
	}
	reply, err := p.transaction.ask("RANGE", p.at, p.hi, strconv.Itoa(size))
	if err != nil {
		return err
	}
	page, isPairs := reply.([][]byte)
	if !isPairs || len(page)%2 > 0 {
		return Refused{fmt.Sprintf("RANGE was answered %v", reply)}
	}
	p.page, p.left, p.isMore = page, p.left-len(page)/2, false
	if len(page) == 2*size {
		p.at, p.isMore = After(string(page[len(page)-2]))
	}
	return nil
}
