// Package seat drives `lockreplay seat` from Go: a node or a token server, each a process of its
// own, as an oracle in the tests of other programs.
//
//	cluster, err := seat.NewCluster("/path/of/lockreplay", 2, 1, "wide")
//	..
//	defer cluster.Close()
//	cluster.Call(1, 1, "spawn")                 // "done"
//	cluster.Call(1, 1, "open 1 rw")             // "fd 0"
//	cluster.Call(1, 1, "set 0 proc write 0 100") // "done"
//
// A Seat alone is for who carries the messages: each that it sends is for the actor beside it.
package seat

import (
	"bufio"
	"fmt"
	"io"
	"os/exec"
	"strconv"
	"strings"
)

// Refused says that a seat refuses a line, and that nothing changed. The code is as of `lockreplay run`.
type Refused struct {
	Code int
	Line string
}

func (r *Refused) Error() string {
	return fmt.Sprintf("refused %d: %s", r.Code, r.Line)
}

// Message is what a seat sends, and to whom, as "node 1" or "server 1".
type Message struct {
	To, Text string
}

// Block is what a seat answers to a line: entries, replies by calls, and messages.
type Block struct {
	Entries []string
	Members []string
	Replies map[string]string
	Sends   []Message
}

// Call returns the name of the call that the block makes, as "1.1.3", or "".
func (b *Block) Call() string {
	if len(b.Entries) > 0 {
		if words := strings.Fields(b.Entries[0]); len(words) > 1 && words[0] == "call" {
			return words[1]
		}
	}
	return ""
}

func (b *Block) take(line string) {
	word, rest, _ := strings.Cut(line, " ")
	switch word {
	case "entry":
		_, entry, _ := strings.Cut(rest, " ")
		b.Entries = append(b.Entries, entry)
	case "member":
		b.Members = append(b.Members, rest)
	case "reply":
		call, reply, _ := strings.Cut(rest, " ")
		b.Replies[call] = reply
	case "to":
		kind, rest, _ := strings.Cut(rest, " ")
		number, message, _ := strings.Cut(rest, " ")
		b.Sends = append(b.Sends, Message{kind + " " + number, message})
	}
}

// Seat is one actor. Start has what it answered to its start.
type Seat struct {
	Actor   string
	Start   *Block
	command *exec.Cmd
	input   io.WriteCloser
	output  *bufio.Reader
}

// New starts an actor, as "node 1" or "server 1", with options as "--nodes=2".
func New(program, actor string, options ...string) (*Seat, error) {
	words := append(append([]string{"seat"}, options...), strings.Fields(actor)...)
	s := &Seat{Actor: actor, command: exec.Command(program, words...)}
	output, err := s.command.StdoutPipe()
	if err != nil {
		return nil, err
	}
	if s.input, err = s.command.StdinPipe(); err != nil {
		return nil, err
	}
	if err = s.command.Start(); err != nil {
		return nil, err
	}
	s.output = bufio.NewReader(output)
	if s.Start, err = s.block("its start"); err != nil {
		s.Close()
		return nil, err
	}
	return s, nil
}

// Call has a process of the node make a call, as "set 0 proc write 0 100".
func (s *Seat) Call(process int, operation string) (*Block, error) {
	return s.Ask(fmt.Sprintf("call %s %d %s", strings.TrimPrefix(s.Actor, "node "), process, operation))
}

// Deliver brings the actor a message.
func (s *Seat) Deliver(message string) (*Block, error) {
	return s.Ask("deliver " + message)
}

// Interrupt ends the open wait of a process of the node without its lock.
func (s *Seat) Interrupt(process int) (*Block, error) {
	return s.Ask(fmt.Sprintf("interrupt %s %d", strings.TrimPrefix(s.Actor, "node "), process))
}

// Tick has the actor try again what is due.
func (s *Seat) Tick() (*Block, error) {
	return s.Ask("tick")
}

// Ask writes a line, and returns the block that answers it, or a *Refused.
func (s *Seat) Ask(line string) (*Block, error) {
	if _, err := io.WriteString(s.input, line+"\n"); err != nil {
		return nil, err
	}
	return s.block(line)
}

// Close ends the process.
func (s *Seat) Close() error {
	s.input.Close()
	return s.command.Wait()
}

func (s *Seat) block(asked string) (*Block, error) {
	block := &Block{Replies: map[string]string{}}
	for {
		line, err := s.output.ReadString('\n')
		if err != nil {
			return nil, fmt.Errorf("%s ended: %w", s.Actor, err)
		}
		line = strings.TrimSuffix(line, "\n")
		if strings.HasPrefix(line, "end ") {
			return block, nil
		}
		if code := strings.TrimPrefix(line, "refused "); code != line {
			number, err := strconv.Atoi(strings.Fields(code)[0])
			if err != nil {
				return nil, err
			}
			return nil, &Refused{number, asked}
		}
		block.take(line)
	}
}
