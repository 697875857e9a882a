// A client of examples/counter.model in one process (--shared): an atomic number, or one that is read and then written (--racy).
package main

import (
	"os"
	"runtime"
	"sync/atomic"
)

func newCounter() Calls {
	var number atomic.Int64
	return Calls{"inc": func() int64 { return number.Add(1) }, "get": number.Load}
}

func newRacyCounter() Calls {
	var number atomic.Int64
	inc := func() int64 {
		next := number.Load() + 1
		runtime.Gosched()
		number.Store(next)
		return next
	}
	return Calls{"inc": inc, "get": number.Load}
}

func main() {
	Serve(map[bool]func() Calls{false: newCounter, true: newRacyCounter}[len(os.Args) > 1])
}
