package scq

/*
#include "handle.h"
*/
import "C"

import (
	"errors"
	"runtime"
	"sync"
	"unsafe"
)

// How many values a step puts or gets at most.
const most = C.SCQ_GO_MOST

// A handle is what one goroutine at a time makes its steps with.
type handle struct {
	lock  sync.Mutex
	inC   *C.scq_go_handle
	slots []uint32 // free ones
	_     [64]byte // two handles share no line of the cache
}

// Slots are numbers of places in a table, which nobody uses.
type slots struct {
	lock sync.Mutex
	free []uint32
}

func (s *slots) fill(count int) {
	s.free = make([]uint32, count)
	for k := range s.free {
		s.free[k] = uint32(k)
	}
}

// Moves so many slots from the end of one list to another.
func move(from, to *[]uint32, count int) {
	rest := len(*from) - count
	*to = append(*to, (*from)[rest:]...)
	*from = (*from)[:rest]
}

func openHandles(room int) ([]handle, error) {
	if C.scq_version() != C.SCQ_VERSION {
		return nil, errors.New("scq: the library is of another version")
	}
	count := 2 * runtime.GOMAXPROCS(0)
	if count > 128 {
		count = 128
	}
	var first *C.scq_go_handle
	if answer := C.scq_go_open(C.uint32_t(room), C.uint32_t(count), &first); answer != C.SCQ_OK {
		return nil, errors.New("scq: " + C.GoString(C.scq_text(answer)))
	}
	handles := make([]handle, count)
	for k := range handles {
		handles[k].inC = (*C.scq_go_handle)(unsafe.Add(unsafe.Pointer(first), k*C.sizeof_scq_go_handle))
		handles[k].slots = make([]uint32, 0, 2*most)
	}
	return handles, nil
}

func closeHandles(handles []handle) {
	C.scq_go_close(handles[0].inC, C.uint32_t(len(handles)))
}

// How many queues are open in C, for tests.
func openQueues() int { return int(C.scq_go_queues()) }

// A handle that nobody has. A goroutine begins to look at one that its stack's place tells, so that
// it mostly finds the same again.
func (q *Queue[T]) take() *handle {
	var here byte
	k := int(uint64(uintptr(unsafe.Pointer(&here))>>11)*0x9e3779b97f4a7c15>>33) % len(q.handles)
	for range q.handles {
		if h := &q.handles[k]; h.lock.TryLock() {
			return h
		}
		if k++; k == len(q.handles) {
			k = 0
		}
	}
	h := &q.handles[k]
	h.lock.Lock()
	return h
}

// No handle puts anything any more.
func (q *Queue[T]) retire() {
	for k := range q.handles {
		h := &q.handles[k]
		h.lock.Lock()
		C.scq_go_retire(C.uintptr_t(uintptr(unsafe.Pointer(h.inC))))
		h.lock.Unlock()
	}
}

// What became of a turn: how many of one's own values were put and got, whether room was freed, and
// what stopped the puts and the gets.
type turned struct {
	put, got       int
	freed          bool
	putErr, getErr error
}

// What an answer is to who puts or gets.
func errorOf(answer C.uint32_t) error {
	switch answer {
	case C.SCQ_OK:
		return nil
	case C.SCQ_FULL:
		return ErrFull
	case C.SCQ_EMPTY:
		return ErrEmpty
	case C.SCQ_RETIRED:
		return ErrClosed
	}
	return ErrSpent
}

// Makes a turn, by one step: puts values of one's own and then those of the puts that wait; gets
// values for oneself and then for the gets that wait. Of the waiters it wakes those that were served
// or refused; the others, for whom it was in vain, stay in their chain.
func (q *Queue[T]) turn(put []T, puts *chain[T], get []T, gets *chain[T]) (t turned) {
	ended := q.ended.Load()
	h := q.take()
	c := h.inC
	q.store(h, put, puts)
	c.to_get = C.uint32_t(len(get) + gets.count)
	C.scq_go_step(C.uintptr_t(uintptr(unsafe.Pointer(c))))
	q.load(h, get, gets)
	didPut, didGet := int(c.put), int(c.got)
	t.putErr, t.getErr, t.freed = errorOf(c.put_answer), errorOf(c.get_answer), c.freed != 0
	h.lock.Unlock()

	if ended && t.putErr == ErrFull {
		t.putErr = ErrClosed
	}
	if ended && t.getErr == ErrEmpty {
		t.getErr = ErrClosed
	}
	t.put = least(didPut, len(put))
	q.puts.serve(puts, didPut-t.put, nil)
	if t.putErr != nil && t.putErr != ErrFull {
		q.puts.serve(puts, puts.count, t.putErr)
	}
	t.got = least(didGet, len(get))
	q.gets.serve(gets, didGet-t.got, nil)
	if t.getErr != nil && t.getErr != ErrEmpty {
		q.gets.serve(gets, gets.count, t.getErr)
	}
	return
}

// Puts the values of a turn into slots, which are the last ones of the handle.
func (q *Queue[T]) store(h *handle, put []T, puts *chain[T]) {
	count := len(put) + puts.count
	if len(h.slots) < count {
		q.free.lock.Lock()
		move(&q.free.free, &h.slots, most-len(h.slots))
		q.free.lock.Unlock()
	}
	w := puts.first
	for k, slot := range h.slots[len(h.slots)-count:] {
		if k < len(put) {
			q.values[slot] = put[k]
		} else {
			q.values[slot] = w.value
			w = w.next
		}
		tellBefore(&q.values[slot])
		h.inC.slots_put[k] = C.uint32_t(slot)
	}
	h.inC.to_put = C.uint32_t(count)
}

// Takes what was got out of its slots, and what wasn't put. The handle has these slots then.
func (q *Queue[T]) load(h *handle, get []T, gets *chain[T]) {
	var none T
	begin := len(h.slots) - int(h.inC.to_put)
	unused := h.slots[begin+int(h.inC.put):]
	for _, slot := range unused {
		q.values[slot] = none
	}
	h.slots = append(h.slots[:begin], unused...)
	w := gets.first
	for k, inC := range h.inC.slots_got[:h.inC.got] {
		slot := uint32(inC)
		tellAfter(&q.values[slot])
		if k < len(get) {
			get[k] = q.values[slot]
		} else {
			w.value = q.values[slot]
			w = w.next
		}
		q.values[slot] = none
		h.slots = append(h.slots, slot)
	}
	if len(h.slots) > most {
		q.free.lock.Lock()
		move(&h.slots, &q.free.free, len(h.slots)-most/2)
		q.free.lock.Unlock()
	}
}

// Puts the first of these values, as many as there is room for.
func (q *Queue[T]) putSome(values []T) (put int, err error) {
	for put < len(values) && err == nil {
		part := values[put:]
		part = part[:least(len(part), most)]
		gets := q.gets.claim(len(part), false)
		t := q.turn(part, &chain[T]{}, nil, &gets)
		put, err = put+t.put, t.putErr
		if gets.count > 0 {
			q.settleGets(gets)
		} else if t.put > 0 {
			q.serveGets()
		}
	}
	return
}

// Gets as many values as there are, up to so many.
func (q *Queue[T]) getSome(values []T) (got int, err error) {
	for got < len(values) && err == nil {
		part := values[got:]
		part = part[:least(len(part), most)]
		puts := q.puts.claim(len(part), false)
		t := q.turn(nil, &puts, part, &chain[T]{})
		got, err = got+t.got, t.getErr
		if puts.count > 0 {
			q.settlePuts(puts)
		} else if t.freed {
			q.servePuts()
		}
	}
	return
}

// Offers room to those that wait for it.
func (q *Queue[T]) servePuts() {
	for {
		c := q.puts.claim(most, true)
		if c.count == 0 {
			return
		}
		q.turn(nil, &c, nil, &chain[T]{})
		if c.count > 0 {
			q.settlePuts(c)
			return
		}
	}
}

// Offers values to those that wait for them.
func (q *Queue[T]) serveGets() {
	for {
		c := q.gets.claim(most, true)
		if c.count == 0 {
			return
		}
		q.turn(nil, &chain[T]{}, nil, &c)
		if c.count > 0 {
			q.settleGets(c)
			return
		}
	}
}

// Has those wait again for whom a turn was in vain, or makes it once more.
func (q *Queue[T]) settlePuts(c chain[T]) {
	for c.count > 0 && !q.puts.rejoin(c) {
		c.epoch = q.puts.epoch.Load()
		q.turn(nil, &c, nil, &chain[T]{})
	}
}

func (q *Queue[T]) settleGets(c chain[T]) {
	for c.count > 0 && !q.gets.rejoin(c) {
		c.epoch = q.gets.epoch.Load()
		q.turn(nil, &chain[T]{}, nil, &c)
	}
}

func least(one, other int) int {
	if one < other {
		return one
	}
	return other
}
