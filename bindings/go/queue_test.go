package scq

import (
	"context"
	"errors"
	"fmt"
	"runtime"
	"sync"
	"sync/atomic"
	"testing"
	"time"
)

var background = context.Background()

func made[T any](t testing.TB, room int) *Queue[T] {
	t.Helper()
	q, err := New[T](room)
	if err != nil {
		t.Fatal(err)
	}
	return q
}

// Each of so many values is put by one of these goroutines, and got once by one of those.
func each(t testing.TB, room, putters, getters, count int) time.Duration {
	q := made[int](t, room)
	seen := make([][]int, getters)
	var puts, gets sync.WaitGroup
	begin := time.Now()
	for p := 0; p < putters; p++ {
		puts.Add(1)
		go func(p int) {
			defer puts.Done()
			for v := p; v < count; v += putters {
				if err := q.Put(background, v); err != nil {
					t.Error(err)
					return
				}
			}
		}(p)
	}
	for g := 0; g < getters; g++ {
		gets.Add(1)
		go func(g int) {
			defer gets.Done()
			got := make([]int, 0, count)
			q.All()(func(v int) bool {
				got = append(got, v)
				return true
			})
			seen[g] = got
		}(g)
	}
	puts.Wait()
	q.Close()
	gets.Wait()
	took := time.Since(begin)
	times := make([]int, count)
	for _, got := range seen {
		last := make(map[int]int)
		for _, v := range got {
			times[v]++
			if before, was := last[v%putters]; was && before > v {
				t.Fatalf("%d was got behind %d", before, v)
			}
			last[v%putters] = v
		}
	}
	for v, n := range times {
		if n != 1 {
			t.Fatalf("%d was got %d times", v, n)
		}
	}
	return took
}

func TestEachOnce(t *testing.T) {
	count := 1000000
	if testing.Short() {
		count = 20000
	}
	for _, room := range []int{1, 2, 3, 64, 1000} {
		t.Run(fmt.Sprint("room ", room), func(t *testing.T) {
			took := each(t, room, 8, 4, count)
			t.Logf("%.2f million values a second", float64(count)/took.Seconds()/1e6)
		})
	}
}

func is(t *testing.T, got, want any) {
	t.Helper()
	if got != want {
		t.Fatalf("%v, and not %v", got, want)
	}
}

func TestAnswers(t *testing.T) {
	for _, room := range []int{-1, 0, MaxRoom + 1} {
		if _, err := New[int](room); err == nil {
			t.Fatalf("a room of %d", room)
		}
	}
	for _, room := range []int{1, 3, 64, MaxRoom} {
		q := made[int](t, room)
		is(t, q.Room(), room)
		for v := 0; v < room; v++ {
			is(t, q.TryPut(v), nil)
		}
		is(t, q.TryPut(room), ErrFull)
		for v := 0; v < room-1; v++ {
			got, err := q.TryGet()
			is(t, got, v)
			is(t, err, nil)
		}
		q.Close()
		q.Close()
		is(t, q.TryPut(0), ErrClosed)
		is(t, q.Put(background, 0), ErrClosed)
		got, err := q.Get(background)
		is(t, got, room-1)
		is(t, err, nil)
		_, err = q.TryGet()
		is(t, err, ErrClosed)
		_, err = q.Get(background)
		is(t, err, ErrClosed)
	}
	_, err := made[string](t, 1).TryGet()
	is(t, err, ErrEmpty)
}

func TestMany(t *testing.T) {
	const count = 10000
	q := made[int](t, 100)
	values := make([]int, count)
	for k := range values {
		values[k] = k
	}
	go func() {
		if put, err := q.PutMany(background, values); put != count || err != nil {
			t.Error(put, err)
		}
		q.Close()
		put, err := q.PutMany(background, values)
		if put != 0 || err != ErrClosed {
			t.Error(put, err)
		}
	}()
	next, room := 0, make([]int, 77)
	for {
		got, err := q.GetMany(background, room)
		if err == ErrClosed {
			break
		}
		is(t, err, nil)
		for _, v := range room[:got] {
			is(t, v, next)
			next++
		}
	}
	is(t, next, count)
	got, err := q.GetMany(background, nil)
	is(t, got, 0)
	is(t, err, nil)
}

func TestContext(t *testing.T) {
	q := made[int](t, 1)
	short, stop := context.WithTimeout(background, 10*time.Millisecond)
	defer stop()
	_, err := q.Get(short)
	is(t, err, context.DeadlineExceeded)
	is(t, q.Put(short, 1), nil)
	is(t, q.Put(short, 2), context.DeadlineExceeded)
	got, err := q.Get(short)
	is(t, got, 1)
	is(t, err, nil)
	_, err = q.TryGet()
	is(t, err, ErrEmpty)
}

// Calls whose contexts end at any moment: what was put is got, each once.
func TestCancelled(t *testing.T) {
	const each = 300
	for _, room := range []int{1, 5} {
		q := made[int](t, room)
		var putters, getters sync.WaitGroup
		var put, got [6 * each]atomic.Int32
		for p := 0; p < 6; p++ {
			putters.Add(1)
			go func(p int) {
				defer putters.Done()
				for v := p; v < len(put); v += 6 {
					ctx, stop := context.WithTimeout(background, time.Duration(v%7)*10*time.Microsecond)
					if err := q.Put(ctx, v); err == nil {
						put[v].Add(1)
					} else if !errors.Is(err, context.DeadlineExceeded) {
						t.Error(err)
					}
					stop()
				}
			}(p)
		}
		for g := 0; g < 3; g++ {
			getters.Add(1)
			go func(g int) {
				defer getters.Done()
				for k := 0; ; k++ {
					ctx, stop := context.WithTimeout(background, time.Duration((k+g)%5)*10*time.Microsecond)
					v, err := q.Get(ctx)
					stop()
					if err == ErrClosed {
						return
					}
					if err == nil {
						got[v].Add(1)
					}
				}
			}(g)
		}
		putters.Wait()
		q.Close()
		getters.Wait()
		for v := range put {
			if put[v].Load() != got[v].Load() {
				t.Fatalf("%d was put %d times and got %d times", v, put[v].Load(), got[v].Load())
			}
		}
		is(t, q.puts.announced.Load(), int32(0))
		is(t, q.gets.announced.Load(), int32(0))
	}
}

func TestClosedInTheMiddle(t *testing.T) {
	for run := 0; run < 50; run++ {
		q := made[int](t, 1+run%5)
		var all sync.WaitGroup
		var put, got atomic.Int64
		for p := 0; p < 4; p++ {
			all.Add(2)
			go func() {
				defer all.Done()
				for q.Put(background, 1) == nil {
					put.Add(1)
				}
			}()
			go func() {
				defer all.Done()
				q.All()(func(v int) bool {
					got.Add(1)
					return true
				})
			}()
		}
		time.Sleep(time.Duration(run) * 20 * time.Microsecond)
		q.Close()
		all.Wait()
		is(t, got.Load(), put.Load())
	}
}

// A value that was got, or wasn't put, is Go's to collect; and the queue with what stands in it.
func TestFreed(t *testing.T) {
	var boxes, freed atomic.Int32
	boxed := func() *[100]int {
		boxes.Add(1)
		box := new([100]int)
		runtime.SetFinalizer(box, func(*[100]int) { freed.Add(1) })
		return box
	}
	before := openQueues()
	func() {
		for k := 0; k < 20; k++ {
			q := made[*[100]int](t, 3)
			for q.TryPut(boxed()) == nil {
			}
			if _, err := q.TryGet(); err != nil {
				t.Fatal(err)
			}
			if k%2 == 0 {
				q.Close()
			}
		}
	}()
	q := made[*[100]int](t, 3)
	for k := 0; k < 100; k++ {
		q.Put(background, boxed())
		q.Get(background)
	}
	for tries := 0; tries < 100 && freed.Load() != boxes.Load(); tries++ {
		runtime.GC()
		time.Sleep(10 * time.Millisecond)
	}
	is(t, freed.Load(), boxes.Load())
	for tries := 0; tries < 100 && openQueues() > before+1; tries++ {
		runtime.GC()
		time.Sleep(10 * time.Millisecond)
	}
	if openQueues() > before+1 {
		t.Fatalf("%d queues are open, and %d were", openQueues(), before)
	}
	runtime.KeepAlive(q)
}

// A put and a get take no memory of Go's.
func TestNoMemory(t *testing.T) {
	q := made[int](t, 3)
	if n := testing.AllocsPerRun(100, func() {
		q.Put(background, 1)
		q.Get(background)
	}); n != 0 {
		t.Fatalf("%v allocations", n)
	}
}
