// A client of @NAME@.model. Call your own system in place of this one. A function has the name of its operation.
package main

import (
	"runtime"
	"sync"
)

type System struct {
	number int64
	lock   sync.Mutex
}

func (s *System) add(n int64) int64 {
	lock := &s.lock // with `new(sync.Mutex)` in place of `&s.lock` a campaign finds a race
	lock.Lock()
	defer lock.Unlock()
	number := s.number + n
	runtime.Gosched()
	s.number = number
	return number
}

func (s *System) get() int64 {
	s.lock.Lock()
	defer s.lock.Unlock()
	return s.number
}

func main() {
	Serve(func() Calls {
		s := &System{}
		return Calls{"add": s.add, "get": s.get}
	})
}
