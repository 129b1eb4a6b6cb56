// Sends a message from one goroutine and gets it in another:
//
//	cd bindings/go && go run ./examples/hello
package main

import (
	"context"
	"fmt"
	"log"

	"scq/v3"
)

func main() {
	queue, err := scq.New[string](64)
	if err != nil {
		log.Fatal(err)
	}
	go func() {
		if err := queue.Put(context.Background(), "hello from Go"); err != nil {
			log.Fatal(err)
		}
		queue.Close()
	}()
	queue.All()(func(text string) bool { // from Go 1.23 on: for text := range queue.All() {
		fmt.Println(text)
		return true
	})
}
