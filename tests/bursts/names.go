// Names that branches claim, for tests/bursts.py. In one process (--shared) a claim looks and stores under one lock, or under two (--racy). In processes names
// are words that all map, and a claim exchanges one, or loads it and then stores it (--racy).
package main

import (
	"os"
	"strings"
	"sync"
	"sync/atomic"
	"syscall"
	"unsafe"
)

var calls atomic.Int64
var isRacy = len(os.Args) > 1

type names struct {
	lock  sync.Mutex
	names map[string]bool
}

func (n *names) claimed(name string) bool {
	n.lock.Lock()
	defer n.lock.Unlock()
	return n.names[name]
}

func (n *names) claim(name string) bool {
	if isRacy && n.claimed(name) {
		return false
	}
	n.lock.Lock()
	defer n.lock.Unlock()
	isNew := isRacy || !n.names[name]
	n.names[name] = true
	return isNew
}

type words [256]uint32

func mapWords() *words {
	file, err := os.OpenFile(os.Getenv("TMPDIR")+"/names-"+os.Getenv("PST_WORKER"), os.O_RDWR|os.O_CREATE, 0o600)
	if err != nil || file.Truncate(1024) != nil {
		panic(err)
	}
	memory, err := syscall.Mmap(int(file.Fd()), 0, 1024, syscall.PROT_READ|syscall.PROT_WRITE, syscall.MAP_SHARED)
	if err != nil {
		panic(err)
	}
	return (*words)(unsafe.Pointer(&memory[0]))
}

func (w *words) claimed(name string) bool { return atomic.LoadUint32(&w[name[0]]) == 1 }

func (w *words) claim(name string) bool {
	if isRacy && w.claimed(name) {
		return false
	}
	return atomic.SwapUint32(&w[name[0]], 1) == 0 || isRacy
}

func (w *words) reset() {
	for at := range w {
		if os.Getenv("PST_BRANCH") == "1" {
			atomic.StoreUint32(&w[at], 0)
		}
	}
}

func callsOf(claim, claimed func(string) bool, reset func()) Calls {
	return Calls{
		"reset":   reset,
		"claim":   claim,
		"claimed": claimed,
		"count":   func() int64 { return calls.Add(1) },
		"text":    func(size int) string { return strings.Repeat("x", size) },
		"fail":    func() bool { panic("as asked") },
		"end":     func() { os.Exit(3) },
	}
}

func main() {
	if os.Getenv("PST_PIPES") == "" {
		w := mapWords()
		ServeBranch(callsOf(w.claim, w.claimed, w.reset))
		return
	}
	Serve(func() Calls {
		n := &names{names: map[string]bool{}}
		return callsOf(n.claim, n.claimed, nil)
	})
}
