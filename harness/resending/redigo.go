package main

import (
	"bufio"
	"fmt"
	"os"
	"strings"

	"github.com/gomodule/redigo/redis"
)

func show(reply interface{}, err error) {
	if err != nil {
		fmt.Println("error", err)
	} else {
		fmt.Println("gave", reply)
	}
}

func main() {
	client, err := redis.Dial("tcp", "127.0.0.1:"+os.Args[1])
	if err != nil {
		panic(err)
	}
	sent := 0
	for lines := bufio.NewScanner(os.Stdin); lines.Scan(); sent++ {
		words := strings.Fields(lines.Text())
		parts := redis.Args{}.AddFlat(words[1:])
		if os.Args[3] == "each" {
			show(client.Do(words[0], parts...))
		} else {
			client.Send(words[0], parts...)
		}
	}
	if os.Args[3] != "each" {
		client.Flush()
		for ; sent > 0; sent-- {
			show(client.Receive())
		}
	}
}
