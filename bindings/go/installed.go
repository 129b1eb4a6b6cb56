//go:build scq_installed

package scq

// What pkg-config names.

/*
#cgo pkg-config: scq
*/
import "C"
