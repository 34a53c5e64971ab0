package main

import (
	"fmt"
	"os"
	"path/filepath"
	"sort"
	"time"
)

// A figure is one request of a worker: when it was sent, and how long its reply took.
type figure struct {
	sent time.Time
	took time.Duration
}

// A result is what a run did: requests a second, latencies in microseconds, and the CPU time of a
// request in microseconds, of the load itself and of each process of -pids.
type result struct {
	Count int       `json:"count"`
	Rate  float64   `json:"rate"`
	P50   float64   `json:"p50"`
	P99   float64   `json:"p99"`
	Max   float64   `json:"max"`
	CPU   []float64 `json:"cpu"`
}

// summary counts the requests that were sent and answered between two times.
func summary(workers []*worker, first, last time.Time) result {
	var took []float64
	for _, it := range workers {
		for _, each := range it.figures {
			if each.sent.After(first) && each.sent.Add(each.took).Before(last) {
				took = append(took, float64(each.took.Nanoseconds())/1e3)
			}
		}
	}
	if len(took) == 0 {
		return result{}
	}
	sort.Float64s(took)
	at := func(part float64) float64 { return took[int(part*float64(len(took)-1))] }
	rate := float64(len(took)) / last.Sub(first).Seconds()
	return result{Count: len(took), Rate: rate, P50: at(0.5), P99: at(0.99), Max: at(1)}
}

// cpuBetween gives the CPU time in nanoseconds that each process uses between two times.
func cpuBetween(pids []string, first, last time.Time) <-chan []int64 {
	done := make(chan []int64, 1)
	go func() {
		used := make([]int64, len(pids))
		time.Sleep(time.Until(first))
		for at, it := range pids {
			used[at] -= cpu(it)
		}
		time.Sleep(time.Until(last))
		for at, it := range pids {
			used[at] += cpu(it)
		}
		done <- used
	}()
	return done
}

// cpu is the CPU time of a process in nanoseconds, of all its threads.
func cpu(pid string) int64 {
	threads, _ := filepath.Glob("/proc/" + pid + "/task/*/schedstat")
	sum := int64(0)
	for _, it := range threads {
		text, _ := os.ReadFile(it) // a thread that has ended meanwhile counts as 0
		var spent int64
		fmt.Sscan(string(text), &spent)
		sum += spent
	}
	return sum
}
