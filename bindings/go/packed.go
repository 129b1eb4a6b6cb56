//go:build !scq_installed

package scq

// The archive and the header beside this package, as dist/install puts them, or those of the
// repository.

/*
#cgo CFLAGS: -I${SRCDIR}/include -I${SRCDIR}/../c
#cgo linux,amd64 LDFLAGS: -L${SRCDIR}/lib/x86_64-linux -L${SRCDIR}/../../dist/x86_64-linux -l:libscq.a
#cgo linux,arm64 LDFLAGS: -L${SRCDIR}/lib/aarch64-linux -L${SRCDIR}/../../dist/aarch64-linux -l:libscq.a
*/
import "C"
