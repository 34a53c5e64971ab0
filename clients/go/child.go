package tbclient

import (
	"bufio"
	"io"
	"os"
	"os/exec"
	"regexp"
	"strings"
	"time"
)

var (
	readyLine = regexp.MustCompile(`^tbd: ready: commit [0-9]+, time ([0-9]+)$`)
	newsLine  = regexp.MustCompile(`^tbd: (?:made |reading |copied |cut )`)
)

// child is tbd as a process.
type child struct {
	command *exec.Cmd
	in      io.WriteCloser
	out     *os.File
	replies *bufio.Reader
	ready   chan struct{} // is closed when it serves
	ended   chan struct{} // is closed when it has ended. What follows is there then
	fault   string        // the line of its fault
}

// startChild starts a command. Its news on standard error go to hear.
func startChild(words []string, hear func(line string)) (*child, error) {
	command := exec.Command(words[0], words[1:]...)
	setApart(command)
	in, err := command.StdinPipe()
	if err != nil {
		return nil, err
	}
	out, outEnd, err := os.Pipe()
	if err != nil {
		in.Close()
		return nil, err
	}
	said, saidEnd, err := os.Pipe()
	if err != nil {
		closeAll(in, out, outEnd)
		return nil, err
	}
	command.Stdout, command.Stderr = outEnd, saidEnd
	err = command.Start()
	closeAll(outEnd, saidEnd)
	if err != nil {
		closeAll(in, out, said)
		return nil, err
	}
	c := &child{
		command: command, in: in, out: out, replies: bufio.NewReader(out),
		ready: make(chan struct{}), ended: make(chan struct{}),
	}
	go c.listen(said, hear)
	return c, nil
}

func closeAll(all ...io.Closer) {
	for _, one := range all {
		one.Close()
	}
}

// listen reads what the child says until it ends.
func (c *child) listen(said *os.File, hear func(string)) {
	defer said.Close()
	lines, isReady := bufio.NewReader(said), false
	for {
		line, err := lines.ReadString('\n')
		line = strings.TrimSuffix(line, "\n")
		switch isNews := newsLine.MatchString(line); {
		case isNews:
			hear(line)
		case readyLine.MatchString(line) && !isReady:
			hear(line)
			isReady = true
			close(c.ready)
		case line != "":
			c.fault = strings.TrimPrefix(line, "tbd: ")
		}
		if err != nil {
			break
		}
	}
	c.command.Wait()
	close(c.ended)
}

// exchange sends a moment and a request, and reads the reply.
func (c *child) exchange(pair []byte, asked requestHeader) ([]byte, error) {
	c.in.Write(pair) // if it fails, so does the read
	header := make([]byte, headerSize)
	if _, err := io.ReadFull(c.replies, header); err != nil {
		return nil, err
	}
	reply, err := decodeReplyHeader(header)
	if err != nil {
		return nil, err
	}
	if err := reply.answers(asked); err != nil {
		return nil, err
	}
	whole := append(header, make([]byte, reply.length)...)
	_, err = io.ReadFull(c.replies, whole[headerSize:])
	return whole, err
}

func (c *child) kill() { c.command.Process.Kill() }

// end ends the child's input, waits for its end, and kills it if that takes too long.
func (c *child) end(patience time.Duration) {
	c.in.Close()
	timer := time.AfterFunc(patience, c.kill)
	<-c.ended
	timer.Stop()
	c.out.Close()
}
