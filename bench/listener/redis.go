package main

import (
	"bytes"
	"fmt"
)

// A setter sets keys of redis to 128 bytes, as many as a transfer has.
type setter struct {
	worker, number int
}

func (s *setter) request() []byte {
	s.number++
	key := fmt.Sprintf("%08d:%012d", s.worker, s.number)
	return []byte(fmt.Sprintf("*3\r\n$3\r\nSET\r\n$%d\r\n%s\r\n$128\r\n%0128d\r\n", len(key), key, s.number))
}

func (s *setter) reply(data []byte) (int, error) {
	end := bytes.IndexByte(data, '\n')
	if end < 0 {
		return 0, nil
	}
	if string(data[:end+1]) != "+OK\r\n" {
		return 0, fmt.Errorf("redis replies %q", data[:end])
	}
	return end + 1, nil
}
