// Package scq is a bounded first-in-first-out queue of values between goroutines, of any number that
// put and get. Its order is that of the proved queue of scq.h, in C, through which each value goes:
// when Put returns, its value stands there.
//
// What a goroutine needs in C, the queue keeps for it: there is nothing to open for each goroutine,
// and nothing to free. The values stay in Go, and only numbers pass through C. The queue, and what
// it took in C, goes once nothing refers to it.
//
// A call of C costs more than the queue's own steps. So PutMany and GetMany make one for up to 32
// values, and a call that frees room, or puts a value, makes the steps of those that wait for it.
//
// On four busy processors eight putters and four getters moved 0.8 to 1.4 million values a second
// through 64 places, by PutMany and GetMany 4.5 to 5.1, by a channel 5.9 to 8.9. Of the processors'
// time for a Put and a Get, a microsecond, half was spent in calls of C, a third in this package;
// what a channel takes, 0.1 microseconds, the queue's own four steps take too.
package scq

/*
#include "handle.h"
*/
import "C"

import (
	"context"
	"errors"
	"fmt"
	"runtime"
	"sync"
	"sync/atomic"
)

// MaxRoom is the largest room.
const MaxRoom = 1 << C.SCQ_MAX_ORDER

// What the calls answer, beside the error of a context that is done.
var (
	ErrFull   = errors.New("scq: no room")
	ErrEmpty  = errors.New("scq: no value")
	ErrClosed = errors.New("scq: closed")
	// ErrSpent comes once the queue has counted 2^60 values.
	ErrSpent = errors.New("scq: tickets have run out")
)

// Queue is a queue of values. Any goroutine may make any of its calls at any time. It isn't copied.
type Queue[T any] struct {
	room    int
	handles []handle
	values  []T     // what stands in the slots
	free    slots   // those that no handle has
	puts    line[T] // who waits for room
	gets    line[T] // who waits for a value
	waiters sync.Pool
	close   sync.Once
	ended   atomic.Bool // nothing is put any more
}

// New makes a queue with room for so many values, from 1 to MaxRoom.
func New[T any](room int) (*Queue[T], error) {
	if room < 1 || room > MaxRoom {
		return nil, fmt.Errorf("scq: the room isn't from 1 to %d", MaxRoom)
	}
	handles, err := openHandles(room)
	if err != nil {
		return nil, err
	}
	q := &Queue[T]{room: room, handles: handles}
	q.values = make([]T, room+len(handles)*2*most)
	q.free.fill(len(q.values))
	runtime.SetFinalizer(q, func(q *Queue[T]) { closeHandles(q.handles) })
	return q, nil
}

// Room is how many values there is room for.
func (q *Queue[T]) Room() int { return q.room }

// Put puts a value, and waits for room. Where it answers nil the value stands in the queue, else it
// doesn't: ErrClosed comes where the queue is closed, and the context's error where that is done and
// the call would have to wait.
func (q *Queue[T]) Put(ctx context.Context, value T) error {
	if q.puts.announced.Load() == 0 {
		if err := q.TryPut(value); err != ErrFull {
			return err
		}
	}
	w := q.waiter()
	w.value = value
	joined := q.puts.joinBehind(w)
	var err error
	if !joined {
		q.puts.announced.Add(1)
	}
	for !joined {
		epoch := q.puts.epoch.Load()
		if err = q.TryPut(value); err != ErrFull {
			q.puts.announced.Add(-1)
			break
		}
		joined = q.puts.join(w, epoch)
	}
	if joined {
		if err = q.puts.wait(ctx, w); err == nil {
			q.serveGets()
		}
	}
	q.let(w)
	return err
}

// Get gets the value that has stood in the queue longest, and waits for one. ErrClosed comes where
// the queue is closed and nothing is left in it.
func (q *Queue[T]) Get(ctx context.Context) (value T, err error) {
	if q.gets.announced.Load() == 0 {
		if value, err = q.TryGet(); err != ErrEmpty {
			return
		}
	}
	w := q.waiter()
	joined := q.gets.joinBehind(w)
	for err = errAgain; err == errAgain; {
		if !joined {
			q.gets.announced.Add(1)
		}
		for !joined {
			epoch := q.gets.epoch.Load()
			if value, err = q.TryGet(); err != ErrEmpty {
				q.gets.announced.Add(-1)
				break
			}
			joined = q.gets.join(w, epoch)
		}
		if joined {
			if err = q.gets.wait(ctx, w); err == nil {
				value = w.value
				q.servePuts()
			}
			joined = false
		}
	}
	q.let(w)
	return
}

// TryPut puts a value if there is room, and answers ErrFull or ErrClosed.
func (q *Queue[T]) TryPut(value T) error {
	one := [1]T{value}
	_, err := q.putSome(one[:])
	return err
}

// TryGet gets a value if there is one, and answers ErrEmpty or ErrClosed.
func (q *Queue[T]) TryGet() (T, error) {
	var one [1]T
	_, err := q.getSome(one[:])
	return one[0], err
}

// PutMany puts these values in their order, and waits for room as Put does. Others may put values
// between them. It answers how many stand in the queue, which are the first ones.
func (q *Queue[T]) PutMany(ctx context.Context, values []T) (int, error) {
	put := 0
	for put < len(values) {
		n, err := q.putSome(values[put:])
		put += n
		if err == ErrFull {
			if err = q.Put(ctx, values[put]); err == nil {
				put++
			}
		}
		if err != nil {
			return put, err
		}
	}
	return put, nil
}

// GetMany gets as many values as there are, up to the length of `values`, and waits for the first
// as Get does.
func (q *Queue[T]) GetMany(ctx context.Context, values []T) (int, error) {
	if len(values) == 0 {
		return 0, nil
	}
	got, err := q.getSome(values)
	if err == ErrEmpty && got == 0 {
		if values[0], err = q.Get(ctx); err == nil {
			got = 1
		}
	}
	for err == nil && got < len(values) {
		var n int
		n, err = q.getSome(values[got:])
		got += n
	}
	if got > 0 {
		err = nil
	}
	return got, err
}

func (q *Queue[T]) waiter() *waiter[T] {
	if w, is := q.waiters.Get().(*waiter[T]); is {
		return w
	}
	return &waiter[T]{wake: make(chan struct{}, 1)}
}

func (q *Queue[T]) let(w *waiter[T]) {
	*w = waiter[T]{wake: w.wake}
	q.waiters.Put(w)
}

// Close ends the puts: those that wait, and those that come later, answer ErrClosed. Values that
// were put can still be got. It may be called again.
func (q *Queue[T]) Close() {
	q.close.Do(func() {
		q.retire()
		q.ended.Store(true)
		q.puts.end(ErrClosed)
		q.gets.end(errAgain)
	})
}

// All is for a range over the values, which ends once the queue is closed and nothing is left in it:
//
//	for value := range queue.All() {
//
// or, before Go 1.23, queue.All()(func(value T) bool { ...; return true }).
func (q *Queue[T]) All() func(yield func(T) bool) {
	return func(yield func(T) bool) {
		for {
			value, err := q.Get(context.Background())
			if err != nil || !yield(value) {
				return
			}
		}
	}
}
