package main

import "testing"

func TestCounter(t *testing.T) { Check(t, "../../counter.model", newCounter, "--trials", "40") }

// This test fails, with the race as its message.
func TestRacyCounter(t *testing.T) {
	Check(t, "../../counter.model", newRacyCounter, "--trials", "20", "--limit", "200")
}
