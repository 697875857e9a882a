// A client of examples/counter.model in one process (--shared): `inc` loads an atomic number and then stores it. The window has a nanosecond.
// With a number of seconds it drives two `inc` at once by hand, as loop.hpp does.
package main

import (
	"fmt"
	"os"
	"runtime"
	"strconv"
	"sync/atomic"
	"time"
)

type counter struct{ number atomic.Int64 }

func (c *counter) inc() int64 {
	next := c.number.Load() + 1
	c.number.Store(next)
	return next
}

// meet lets two goroutines go on at the same time. After some microseconds the other one may wait for this processor.
func meet(arrived *atomic.Uint64) {
	round := (arrived.Add(1) - 1) / 2
	for spins := 0; arrived.Load()/2 == round; spins++ {
		if spins > 1000 {
			runtime.Gosched()
		}
	}
}

// loop drives two calls at once for some seconds, and prints the drives, those that failed, and the seconds until the first of them.
func loop(seconds float64) {
	var c counter
	var arrived atomic.Uint64
	var other int64
	drives, failures, first := 0, 0, -1.0
	go func() {
		for {
			meet(&arrived)
			other = c.inc()
			meet(&arrived)
		}
	}()
	for begun := time.Now(); time.Since(begun).Seconds() < seconds; drives++ {
		c.number.Store(0)
		meet(&arrived)
		own := c.inc()
		meet(&arrived)
		if own != other {
			continue
		}
		if failures++; failures == 1 {
			first = time.Since(begun).Seconds()
		}
	}
	fmt.Println(drives, failures, fmt.Sprintf("%.3f", first))
}

func main() {
	if len(os.Args) > 1 {
		seconds, _ := strconv.ParseFloat(os.Args[1], 64)
		loop(seconds)
		return
	}
	Serve(func() Calls {
		c := &counter{}
		return Calls{"inc": c.inc, "get": c.number.Load}
	})
}
