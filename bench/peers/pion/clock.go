package main

import "time"

const (
	batches    = 16
	leastBatch = 2 * time.Millisecond
)

// The nanoseconds that a turn takes, in the least of its batches. The first ones find out how many turns a batch needs. Each turn
// has to answer the same, so that no refused call is timed.
func leastOf(turn func() int, wanted int) float64 {
	turns, least := 1, 0.0
	for batch := 0; batch < batches; {
		sum, start := 0, time.Now()
		for i := 0; i < turns; i++ {
			sum += turn()
		}
		spent := time.Since(start)
		if sum != turns*wanted {
			fail("a call")
		}
		if batch == 0 && spent < leastBatch {
			turns *= 2
			continue
		}
		batch++
		if each := float64(spent.Nanoseconds()) / float64(turns); least == 0 || each < least {
			least = each
		}
	}
	return least
}
