package main

import (
	"bufio"
	"fmt"
	"os"
	"strings"

	"gopkg.in/redis.v5"
)

func show(reply interface{}, err error) {
	if err != nil {
		fmt.Println("error", err)
	} else {
		fmt.Println("gave", reply)
	}
}

func main() {
	client := redis.NewClient(&redis.Options{Addr: "127.0.0.1:" + os.Args[1], PoolSize: 1})
	batch := client.Pipeline()
	for lines := bufio.NewScanner(os.Stdin); lines.Scan(); {
		parts := []interface{}{}
		for _, word := range strings.Fields(lines.Text()) {
			parts = append(parts, word)
		}
		command := redis.NewCmd(parts...)
		if os.Args[3] == "each" {
			client.Process(command)
			show(command.Result())
		} else {
			batch.Process(command)
		}
	}
	if os.Args[3] != "each" {
		show(batch.Exec())
	}
}
