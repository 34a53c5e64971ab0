// Conformance is the runner of this client for the conformance kit: a JSON line in, a JSON line out.
//
//	go build -o out/conformance ./internal/conformance
//	../conformance/kit.py -- out/conformance
package main

import (
	"bufio"
	"encoding/json"
	"fmt"
	"os"
)

func main() {
	if err := run(); err != nil {
		fmt.Fprintln(os.Stderr, err)
		os.Exit(1)
	}
}

func run() error {
	runner := newRunner()
	lines := bufio.NewReader(os.Stdin)
	answers := json.NewEncoder(os.Stdout)
	answers.SetEscapeHTML(false)
	for {
		text, err := lines.ReadBytes('\n')
		if len(text) == 0 {
			return nil // the end of the input
		}
		if err != nil {
			return err
		}
		line, err := decodeLine(text)
		if err != nil {
			return err
		}
		if err := answers.Encode(runner.answer(line)); err != nil {
			return err
		}
	}
}
