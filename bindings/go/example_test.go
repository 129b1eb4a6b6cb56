package scq_test

import (
	"context"
	"fmt"
	"log"

	"scq/v3"
)

func Example() {
	queue, err := scq.New[string](64)
	if err != nil {
		log.Fatal(err)
	}
	go func() {
		defer queue.Close()
		for _, word := range []string{"hello", "from", "Go"} {
			if err := queue.Put(context.Background(), word); err != nil {
				log.Print(err)
			}
		}
	}()
	queue.All()(func(word string) bool { // from Go 1.23 on: for word := range queue.All() {
		fmt.Println(word)
		return true
	})
	// Output:
	// hello
	// from
	// Go
}
