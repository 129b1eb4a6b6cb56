// A channel of Go with room for 1,024 values, recorded: each goroutine sends and receives so many times, without waiting.
//
//	mkdir -p channel/recorder && cp recorders/recorder.go channel/recorder && cp recorders/examples/channel.go channel/main.go
//	(cd channel && go mod init channel && go build)
//	rm -rf logs && mkdir logs && channel/channel logs 62500 && ./scq judge --room 1024 logs/*.log
package main

import (
	"channel/recorder"
	"fmt"
	"os"
	"strconv"
	"sync"
)

const goroutines = 4

func run(seat *recorder.Seat, queue chan uint64, calls int) {
	for k := 0; k < calls; k++ {
		value := seat.PutStart(0)
		select {
		case queue <- value:
			seat.PutDone()
		default:
			seat.PutRefused()
		}
		seat.GetStart(0)
		select {
		case value := <-queue:
			seat.GetGot(value)
		default:
			seat.GetNothing()
		}
	}
}

func main() {
	if len(os.Args) < 3 {
		fmt.Fprintln(os.Stderr, "channel FOLDER CALLS")
		os.Exit(2)
	}
	calls, _ := strconv.Atoi(os.Args[2])
	queue := make(chan uint64, 1024)
	recording := recorder.New()
	// All begin together: a goroutine that is done before the next has begun overlaps with none.
	var here, done sync.WaitGroup
	here.Add(goroutines)
	for i := 0; i < goroutines; i++ {
		seat, err := recording.Open(uint32(i), 4*calls, fmt.Sprintf("%s/%d.log", os.Args[1], i+1))
		if err != nil {
			fmt.Fprintln(os.Stderr, err)
			os.Exit(1)
		}
		done.Add(1)
		go func() {
			defer done.Done()
			here.Done()
			here.Wait()
			run(seat, queue, calls)
			if err := seat.Close(); err != nil {
				fmt.Fprintln(os.Stderr, err)
				os.Exit(1)
			}
		}()
	}
	done.Wait()
}
