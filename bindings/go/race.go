//go:build race

package scq

import (
	"runtime"
	"unsafe"
)

// Tells the race detector, which doesn't see into C, that what was done before a value was put
// comes before what is done behind its get.

func tellBefore[T any](value *T) { runtime.RaceReleaseMerge(unsafe.Pointer(value)) }
func tellAfter[T any](value *T)  { runtime.RaceAcquire(unsafe.Pointer(value)) }
