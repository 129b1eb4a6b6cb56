// Package recorder records the calls that goroutines make of first-in-first-out queues. It needs nothing but the standard library. What it
// writes `scq judge` reads: a file for each seat, in its head the number of the run, and then a line for each event, with its stamp in front.
//
// How to use it:
//  1. One Recorder for all goroutines, by New. One Seat for each of them, by Open, with a number of its own and a file.
//  2. The queue carries uint64 values, which the recorder gives: value := seat.PutStart(queue), then put the value, then seat.PutDone(), or
//     seat.PutRefused() where the queue was full. A value that was refused is not put again: each try is a put of its own, with a number of
//     its own. A queue of other values carries this one beside its own.
//  3. seat.GetStart(queue), then get, then seat.GetGot(value) or seat.GetNothing().
//  4. seat.Close() for each seat, and `scq judge 1.log 2.log ..`.
//
// A seat writes its file whenever its room is full, at the end of a call: with room for two events of each call it doesn't write meanwhile.
// Until it is closed the last line of its file is unfinished, so that `scq judge` refuses what os.Exit, a panic or a signal has cut.
//
// Stamps are of a counter that all goroutines share: a full barrier, which makes a call's stores seen before its End, and so hides what a
// missing barrier does.
package recorder

import (
	"os"
	"strconv"
	"sync/atomic"
	"time"
)

// A value is the number of its put, and above these bits its seat: seats are below 2^24, puts of a seat below 2^40.
const numberBits = 40

// An End's line without so many bytes is none, and neither is the head.
const heldBytes = 2

// A Recorder stamps the events of all seats. The counter has lines of the cache of its own.
type Recorder struct {
	_    [128]byte
	next uint64
	_    [128]byte
	run  uint64
}

type event struct {
	stamp, what uint64
	line        func(seat *Seat, what uint64, to []byte) []byte
}

// A Seat is what one goroutine records.
type Seat struct {
	recorder *Recorder
	number   uint64
	puts     uint64
	room     int
	events   []event
	file     *os.File
	held     []byte // the last bytes, which the file lacks until it is closed
	fault    error
	_        [128]byte
}

// New begins a recording. The number of the run is of microseconds, and behind them three digits of the process's number.
func New() *Recorder {
	return &Recorder{run: uint64(time.Now().UnixMicro())*1000 + uint64(os.Getpid())%1000}
}

// Open makes a seat of this number, with room for so many events, that writes this file.
func (recorder *Recorder) Open(number uint32, room int, name string) (*Seat, error) {
	file, err := os.Create(name)
	if err != nil {
		return nil, err
	}
	if room < 4 {
		room = 4
	}
	seat := &Seat{recorder: recorder, number: uint64(number), room: room, events: make([]event, 0, room), file: file}
	seat.write([]byte("run "+strconv.FormatUint(recorder.run, 10)+"\n"), false)
	return seat, seat.fault
}

// PutStart begins a put into the queue. The value to put.
func (seat *Seat) PutStart(queue uint32) uint64 {
	seat.puts++
	seat.note(putLine, uint64(queue))
	return seat.number<<numberBits | seat.puts
}

// PutDone ends a put.
func (seat *Seat) PutDone() { seat.end(doneLine, 0) }

// PutRefused ends a put that the queue had no place for.
func (seat *Seat) PutRefused() { seat.end(refusedLine, 0) }

// GetStart begins a get from the queue.
func (seat *Seat) GetStart(queue uint32) { seat.note(getLine, uint64(queue)) }

// GetGot ends a get by what it has got.
func (seat *Seat) GetGot(value uint64) { seat.end(gotLine, value) }

// GetNothing ends a get that found the queue empty.
func (seat *Seat) GetNothing() { seat.end(nothingLine, 0) }

// Close writes the rest. The first fault there was.
func (seat *Seat) Close() error {
	seat.flush(true)
	if err := seat.file.Close(); seat.fault == nil {
		seat.fault = err
	}
	return seat.fault
}

func (seat *Seat) note(line func(*Seat, uint64, []byte) []byte, what uint64) {
	stamp := atomic.AddUint64(&seat.recorder.next, 1)
	seat.events = append(seat.events, event{stamp, what, line})
}

func (seat *Seat) end(line func(*Seat, uint64, []byte) []byte, what uint64) {
	seat.note(line, what)
	if seat.room-len(seat.events) < 2 {
		seat.flush(false)
	}
}

func (seat *Seat) flush(isLast bool) {
	var lines []byte
	for _, it := range seat.events {
		lines = it.line(seat, it.what, append(strconv.AppendUint(lines, it.stamp, 10), ' '))
	}
	seat.events = seat.events[:0]
	seat.write(lines, isLast)
}

// Writes what was held back and these bytes, but for the last, where more may come.
func (seat *Seat) write(bytes []byte, isLast bool) {
	bytes = append(seat.held, bytes...)
	until := len(bytes)
	if !isLast {
		until -= heldBytes
	}
	if _, err := seat.file.Write(bytes[:until]); err != nil && seat.fault == nil {
		seat.fault = err
	}
	seat.held = append([]byte(nil), bytes[until:]...)
}

func (seat *Seat) of(to []byte, word string) []byte {
	return strconv.AppendUint(append(to, word...), seat.number, 10)
}

// The content is `-`: which put a value is from is all that a line says.
func putLine(seat *Seat, queue uint64, to []byte) []byte {
	return append(strconv.AppendUint(append(seat.of(to, "start "), " put "...), queue, 10), " -\n"...)
}

func getLine(seat *Seat, queue uint64, to []byte) []byte {
	return append(strconv.AppendUint(append(seat.of(to, "start "), " get "...), queue, 10), '\n')
}

func doneLine(seat *Seat, _ uint64, to []byte) []byte {
	return append(seat.of(to, "end "), " done\n"...)
}

func refusedLine(seat *Seat, _ uint64, to []byte) []byte {
	return append(seat.of(to, "end "), " spent\n"...)
}

func gotLine(seat *Seat, value uint64, to []byte) []byte {
	to = strconv.AppendUint(append(seat.of(to, "end "), " got "...), value>>numberBits, 10)
	return append(strconv.AppendUint(append(to, ' '), value&(1<<numberBits-1), 10), " -\n"...)
}

func nothingLine(seat *Seat, _ uint64, to []byte) []byte {
	return append(seat.of(to, "end "), " nothing\n"...)
}
