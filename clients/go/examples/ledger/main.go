// Ledger has accounts, and transfers in double entry without overdraft.
//
//	ledger ADDRESS transfer                          makes a transfer of each line of its input, `ID FROM TO AMOUNT`;
//	                                                 prints `ID ANSWER` for each
//	ledger ADDRESS balances                          prints `ACCOUNT BALANCE` of each account, all of one moment
//	ledger ADDRESS statement ACCOUNT FIRST COUNT     prints so many entries from the first on,
//	                                                 each as `NUMBER AMOUNT BALANCE ID OTHER`
//
// The answers: `moved`. `uncovered`: the account has less. `differs`: this ID was another transfer. `invalid`: a name, an amount, one
// account twice. `later`: nothing was written. `unknown`: nobody knows. After `later` and `unknown` the status is 1. Give the same lines
// again: what was moved isn't moved twice, and has the answer that it had.
//
// Amounts are whole cents. Money comes from the account `outside` and goes there; it alone may be below zero. So all balances add up to
// zero.
//
// Keys: `account:NAME` holds the balance and how many entries there are, `entry:NAME:NUMBER` the amount, the balance behind it, the ID and
// the other account, `transfer:ID` the answer and what was asked. A transfer writes five of them in one transaction.
//
// Transfers of one account meet in its key, so that all but one of them begin again; those of other accounts don't. `balances` reads all
// accounts in one transaction, which sees at most 32,767 of them; a statement costs what it prints, however long the account is.
package main

import (
	"bufio"
	"context"
	"errors"
	"fmt"
	"log"
	"os"
	"regexp"
	"strconv"
	"strings"

	"ssikvd"
)

const outside = "outside"

var (
	name   = regexp.MustCompile(`^[A-Za-z0-9_-]{1,64}$`) // without a colon, so that no account's entries stand among those of another
	amount = regexp.MustCompile(`^[1-9][0-9]{0,11}$`)
)

// transfer is what one asks for: the line `ID FROM TO AMOUNT`.
type transfer struct {
	id, source, target string
	amount             int64
}

// transferOf gives the transfer of a line's words, and whether they are those of one.
func transferOf(words []string) (transfer, bool) {
	if len(words) != 4 || words[1] == words[2] || !amount.MatchString(words[3]) {
		return transfer{}, false
	}
	for _, word := range words[:3] {
		if !name.MatchString(word) {
			return transfer{}, false
		}
	}
	cents, err := strconv.ParseInt(words[3], 10, 64)
	return transfer{words[0], words[1], words[2], cents}, err == nil
}

// asked is the transfer without its ID, as it is kept with the answer.
func (of transfer) asked() string { return fmt.Sprintf("%s %s %d", of.source, of.target, of.amount) }

// balanceOf gives the balance, and how many entries there are; zero of both for an account that nobody has used.
func balanceOf(t *ssikvd.Transaction, account string) (balance, entries int64, err error) {
	value, err := t.Get("account:" + account)
	if err != nil || value == nil {
		return 0, 0, err
	}
	_, err = fmt.Sscan(string(value), &balance, &entries)
	return balance, entries, err
}

// post adds an entry to the account, below zero where money leaves it.
func post(t *ssikvd.Transaction, account string, amount int64, id, other string) error {
	balance, entries, err := balanceOf(t, account)
	if err != nil {
		return err
	}
	if err := t.Set("account:"+account, []byte(fmt.Sprintf("%d %d", balance+amount, entries+1))); err != nil {
		return err
	}
	entry := fmt.Sprintf("%d %d %s %s", amount, balance+amount, id, other)
	return t.Set(fmt.Sprintf("entry:%s:%010d", account, entries+1), []byte(entry))
}

// move makes both entries, unless the source has less. It gives the answer, and what was asked.
func move(t *ssikvd.Transaction, of transfer) ([]byte, error) {
	balance, _, err := balanceOf(t, of.source)
	if err != nil {
		return nil, err
	}
	if of.source != outside && balance < of.amount {
		return []byte("uncovered " + of.asked()), nil
	}
	if err := post(t, of.source, -of.amount, of.id, of.target); err != nil {
		return nil, err
	}
	return []byte("moved " + of.asked()), post(t, of.target, of.amount, of.id, of.source)
}

// answer gives the answer to a transfer, made at most once however often it is asked for.
func answer(ctx context.Context, store *ssikvd.Store, words []string) (string, error) {
	of, isValid := transferOf(words)
	if !isValid {
		return "invalid", nil
	}
	found, err := store.Once(ctx, "transfer:"+of.id, func(t *ssikvd.Transaction) ([]byte, error) { return move(t, of) })
	switch err.(type) {
	case nil:
	case ssikvd.Lost:
		return "unknown", nil
	case ssikvd.Conflict, ssikvd.Full, ssikvd.Stopped, ssikvd.Unreachable:
		log.Print(of.id, ": ", err)
		return "later", nil
	default:
		return "", err
	}
	said := strings.SplitN(string(found), " ", 2)
	if said[1] != of.asked() {
		return "differs", nil
	}
	return said[0], nil
}

var errUnsettled = errors.New("some transfers have no answer: give the same lines again")

// transfers makes those of the input one after another. The error is errUnsettled where not all of them are settled.
func transfers(ctx context.Context, store *ssikvd.Store, input *bufio.Scanner) error {
	unsettled := error(nil)
	for input.Scan() {
		words := strings.Split(input.Text(), " ")
		said, err := answer(ctx, store, words)
		if err != nil {
			return err
		}
		fmt.Println(words[0], said)
		if said == "later" || said == "unknown" {
			unsettled = errUnsettled
		}
	}
	if input.Err() != nil {
		return input.Err()
	}
	return unsettled
}

// balances gives each account with its balance. They are of one snapshot, so they add up to zero beside any transfer.
func balances(t *ssikvd.Transaction) (rows []string, err error) {
	pairs := t.Range("account:", "account;", ssikvd.All)
	for pairs.Next() {
		rows = append(rows, strings.TrimPrefix(pairs.Key, "account:")+" "+strings.Fields(string(pairs.Value))[0])
	}
	return rows, pairs.Err()
}

// statement gives so many entries of the account from the first, each with its number.
func statement(t *ssikvd.Transaction, account string, first, count int) (rows []string, err error) {
	prefix := "entry:" + account + ":"
	end, _ := ssikvd.EndOfPrefix(prefix)
	pairs := t.Range(fmt.Sprintf("%s%010d", prefix, first), end, count)
	for pairs.Next() {
		rows = append(rows, strings.TrimLeft(strings.TrimPrefix(pairs.Key, prefix), "0")+" "+string(pairs.Value))
	}
	return rows, pairs.Err()
}

// show prints the rows that a transaction reads.
func show(ctx context.Context, store *ssikvd.Store, read func(*ssikvd.Transaction) ([]string, error)) error {
	var rows []string
	err := store.Transact(ctx, func(t *ssikvd.Transaction) (err error) {
		rows, err = read(t)
		return err
	})
	for _, row := range rows {
		fmt.Println(row)
	}
	return err
}

func run(ctx context.Context, address, what string, words []string) error {
	store, err := ssikvd.Connect(address, ssikvd.Options{Connections: 1})
	if err != nil {
		return err
	}
	defer store.Close()
	switch what {
	case "transfer":
		return transfers(ctx, store, bufio.NewScanner(os.Stdin))
	case "balances":
		return show(ctx, store, balances)
	}
	first, err := strconv.Atoi(words[1])
	if err != nil {
		return err
	}
	count, err := strconv.Atoi(words[2])
	if err != nil {
		return err
	}
	return show(ctx, store, func(t *ssikvd.Transaction) ([]string, error) { return statement(t, words[0], first, count) })
}

func main() {
	if err := run(context.Background(), os.Args[1], os.Args[2], os.Args[3:]); err != nil {
		log.Fatal(err)
	}
}
