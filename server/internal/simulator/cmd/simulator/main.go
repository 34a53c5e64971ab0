// Command simulator runs replicas over seeds, in virtual time.
//
//	simulator [-first SEED] [-seeds N] [-jobs N] [-stop]
//
// Each seed that fails is shortened, and its run printed as a story. The last line is
// 'N passed, M failed in S s'.
package main

import (
	"flag"
	"fmt"
	"os"
	"runtime"
	"time"

	"telovamish.org/server/internal/simulator"
)

func main() {
	first := flag.Int64("first", 0, "the first seed")
	seeds := flag.Int64("seeds", 1000, "how many seeds are run")
	jobs := flag.Int("jobs", runtime.NumCPU(), "how many are run at a time")
	stop := flag.Bool("stop", false, "end at the first that fails")
	flag.Parse()
	options := simulator.Options{}
	if *jobs < 1 || *seeds < 1 || flag.NArg() > 0 {
		flag.Usage()
		os.Exit(2)
	}
	began := time.Now()
	failed := simulator.RunMany(*first, *seeds, *jobs, options, func(seed int64) bool {
		fmt.Println(simulator.Explain(seed, options))
		return *stop
	})
	fmt.Printf("%d passed, %d failed in %.0f s\n", *seeds-failed, failed, time.Since(began).Seconds())
	if failed > 0 {
		os.Exit(1)
	}
}
