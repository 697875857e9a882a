package main

import (
	"os"
	"testing"
)

// Gives options to Check of pst.go: in two spellings, twice, and those that it sets itself.
func TestOptions(t *testing.T) {
	giveBack := func(n int64, b bool, s string, l [][]int64, m map[string]int64) []any { return []any{n, b, s, l, m} }
	newValues := func() Calls { return Calls{"give-back": giveBack} }
	Check(t, os.Getenv("MODEL"), newValues, "--trials", "9", "--workers=2", "--branches", "3", "--limit=50", "--max_failures", "1", "--trials=7")
}
