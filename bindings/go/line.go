package scq

import (
	"context"
	"errors"
	"sync"
	"sync/atomic"
)

// A waiter is a call that waits for room or for a value. Who frees room, or puts a value, makes the
// call's step for it, and then wakes it.
type waiter[T any] struct {
	value   T
	err     error
	wake    chan struct{}
	next    *waiter[T]
	before  *waiter[T]
	stands  bool // it is on the list
	stopped bool // its context is done
}

// What a waiter is told, for the package alone.
var (
	errAgain   = errors.New("scq: make the step again")
	errStopped = errors.New("scq: the context is done")
)

// A line is what waits for room, or what waits for values: first come, first served.
//
// Who waits announces itself, reads the epoch, makes a step in vain, and joins the list if the epoch
// is the same still. Who frees room or puts a value looks behind that whether somebody is announced;
// then it moves the epoch on, and serves the list. So whatever is freed or put behind the last step
// in vain of one on the list is offered to it. Who is claimed off the list stays announced until it
// is served, or stands at the front again by the same rule.
type line[T any] struct {
	announced atomic.Int32
	epoch     atomic.Uint64 // moved on under the lock
	lock      sync.Mutex
	first     *waiter[T]
	last      *waiter[T]
	ended     bool // nobody joins any more
}

// A chain is what was claimed of a line: so many waiters, and the epoch of then.
type chain[T any] struct {
	first *waiter[T]
	count int
	epoch uint64
}

// Claims up to so many waiters. Who has freed or put something `offers` it.
func (l *line[T]) claim(most int, offers bool) (c chain[T]) {
	if l.announced.Load() == 0 {
		return
	}
	l.lock.Lock()
	defer l.lock.Unlock()
	if offers {
		l.epoch.Add(1)
	}
	c.epoch = l.epoch.Load()
	c.first = l.first
	for c.count < most && l.first != nil {
		l.first.stands = false
		l.first = l.first.next
		c.count++
	}
	if l.first == nil {
		l.last = nil
	} else if l.first.before != nil {
		l.first.before.next = nil
		l.first.before = nil
	}
	return
}

// Joins the list at its end, if the epoch is this one. Answers whether it did.
func (l *line[T]) join(w *waiter[T], epoch uint64) bool {
	l.lock.Lock()
	defer l.lock.Unlock()
	if l.ended || l.epoch.Load() != epoch {
		return false
	}
	l.append(w)
	return true
}

// Joins the list where others stand on it: what is offered is offered to them first.
func (l *line[T]) joinBehind(w *waiter[T]) bool {
	if l.announced.Load() == 0 {
		return false
	}
	l.lock.Lock()
	defer l.lock.Unlock()
	if l.ended || l.first == nil {
		return false
	}
	l.announced.Add(1)
	l.append(w)
	return true
}

func (l *line[T]) append(w *waiter[T]) {
	w.next, w.before, w.stands = nil, l.last, true
	if l.last == nil {
		l.first = w
	} else {
		l.last.next = w
	}
	l.last = w
}

// Puts a chain, whose step was in vain, back at the front, if the epoch is its own still. Answers
// whether it did: if not, the chain's step is to be made again.
func (l *line[T]) rejoin(c chain[T]) bool {
	l.lock.Lock()
	defer l.lock.Unlock()
	if l.ended || l.epoch.Load() != c.epoch {
		return false
	}
	var last *waiter[T]
	for w := c.first; w != nil; w = w.next {
		w.before, w.stands = last, true
		last = w
	}
	last.next = l.first
	if l.first == nil {
		l.last = last
	} else {
		l.first.before = last
	}
	l.first = c.first
	for w := c.first; c.count > 0; c.count-- {
		next := w.next
		if w.stopped {
			l.remove(w)
			l.done(w, errStopped)
		}
		w = next
	}
	return true
}

func (l *line[T]) remove(w *waiter[T]) {
	if w.before == nil {
		l.first = w.next
	} else {
		w.before.next = w.next
	}
	if w.next == nil {
		l.last = w.before
	} else {
		w.next.before = w.before
	}
	w.stands = false
}

// Wakes a waiter, whose call is through.
func (l *line[T]) done(w *waiter[T], err error) {
	l.announced.Add(-1)
	w.err = err
	w.wake <- struct{}{}
}

// Wakes the first ones of a chain, whose calls are through.
func (l *line[T]) serve(c *chain[T], count int, err error) {
	for ; count > 0; count-- {
		w := c.first
		c.first = w.next
		c.count--
		l.done(w, err)
	}
}

// Waits until the call is through, or the context is done.
func (l *line[T]) wait(ctx context.Context, w *waiter[T]) error {
	stop := ctx.Done()
	if stop == nil {
		<-w.wake
		return w.err
	}
	select {
	case <-w.wake:
		return w.err
	case <-stop:
	}
	l.lock.Lock()
	stood := w.stands
	if stood {
		l.remove(w)
		l.announced.Add(-1)
	}
	w.stopped = true
	l.lock.Unlock()
	if !stood {
		// Somebody is at its step.
		<-w.wake
	}
	if stood || w.err == errStopped {
		return ctx.Err()
	}
	return w.err
}

// Nobody joins any more. Who stands there is told this.
func (l *line[T]) end(err error) {
	l.lock.Lock()
	defer l.lock.Unlock()
	l.ended = true
	for w := l.first; w != nil; {
		next := w.next
		w.stands = false
		l.done(w, err)
		w = next
	}
	l.first, l.last = nil, nil
}
