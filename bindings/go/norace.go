//go:build !race

package scq

func tellBefore[T any](*T) {}
func tellAfter[T any](*T)  {}
