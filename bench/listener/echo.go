package main

import (
	"bufio"
	"fmt"
	"io"
	"net"
	"strings"
)

// echo answers each request of a listener's clients at once: what a server in Go does at most.
func echo(address string) error {
	kind, place, _ := strings.Cut(address, ":")
	listener, err := net.Listen(kind, place)
	if err != nil {
		return err
	}
	fmt.Println("listens on", listener.Addr())
	for {
		it, err := listener.Accept()
		if err != nil {
			return err
		}
		go answer(it)
	}
}

func answer(it net.Conn) {
	defer it.Close()
	in, commit := bufio.NewReaderSize(it, 1<<16), uint64(0)
	request, reply := make([]byte, header), make([]byte, header)
	for {
		if _, err := io.ReadFull(in, request); err != nil {
			return
		}
		if _, err := in.Discard(int(little.Uint32(request[32:]))); err != nil {
			return
		}
		commit++
		copy(reply, request[:29])
		if request[28] == register {
			little.PutUint64(reply[16:], commit)
		}
		little.PutUint64(reply[36:], commit)
		if _, err := it.Write(reply); err != nil {
			return
		}
	}
}
