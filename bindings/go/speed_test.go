package scq

import (
	"fmt"
	"sync"
	"syscall"
	"testing"
	"time"
)

// The processors' time of this process so far.
func spent() time.Duration {
	var u syscall.Rusage
	syscall.Getrusage(syscall.RUSAGE_SELF, &u)
	return time.Duration(u.Utime.Nano() + u.Stime.Nano())
}

// How many million values a second these putters and getters move, by these calls.
func speed(putters, getters, count int, put func(first, step int), get func(), end func()) string {
	before := spent()
	var puts, gets sync.WaitGroup
	begin := time.Now()
	for p := 0; p < putters; p++ {
		puts.Add(1)
		go func(p int) { put(p, putters); puts.Done() }(p)
	}
	for g := 0; g < getters; g++ {
		gets.Add(1)
		go func() { get(); gets.Done() }()
	}
	puts.Wait()
	end()
	gets.Wait()
	return fmt.Sprintf("%.2f (%d ns of a processor)", float64(count)/time.Since(begin).Seconds()/1e6,
		(spent()-before).Nanoseconds()/int64(count))
}

func BenchmarkBesideChannel(b *testing.B) {
	const putters, getters, room, count = 8, 4, 64, 1000000
	for k := 0; k < b.N; k++ {
		channel := make(chan int, room)
		of := speed(putters, getters, count, func(v, step int) {
			for ; v < count; v += step {
				channel <- v
			}
		}, func() {
			for range channel {
			}
		}, func() { close(channel) })
		q := made[int](b, room)
		ours := speed(putters, getters, count, func(v, step int) {
			for ; v < count; v += step {
				q.Put(background, v)
			}
		}, func() { q.All()(func(int) bool { return true }) }, q.Close)
		many := made[int](b, room)
		ofMany := speed(putters, getters, count, func(v, step int) {
			values := make([]int, 0, 32)
			for ; v < count; v += step {
				if values = append(values, v); len(values) == cap(values) || v+step >= count {
					many.PutMany(background, values)
					values = values[:0]
				}
			}
		}, func() {
			values := make([]int, 32)
			for {
				if _, err := many.GetMany(background, values); err != nil {
					return
				}
			}
		}, many.Close)
		b.Logf("million values a second: channel %s, queue %s, by many %s", of, ours, ofMany)
	}
}
