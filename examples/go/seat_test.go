package seat

import (
	"errors"
	"os"
	"testing"
)

// program returns the path of lockreplay, which the variable LOCKREPLAY_PROGRAM has.
func program(t *testing.T) string {
	path := os.Getenv("LOCKREPLAY_PROGRAM")
	if path == "" {
		t.Skip("LOCKREPLAY_PROGRAM names no program")
	}
	return path
}

func TestTwoNodesShareAFile(t *testing.T) {
	cluster, err := NewCluster(program(t), 2, 1, "wide")
	if err != nil {
		t.Fatal(err)
	}
	defer cluster.Close()
	steps := []struct {
		node             int
		operation, reply string
	}{
		{1, "spawn", "done"},
		{1, "open 1 rw", "fd 0"},
		{2, "spawn", "done"},
		{2, "open 1 rw", "fd 0"},
		{1, "set 0 proc write 0 100", "done"},
		{2, "set 0 proc read 50 10", "again write 0 99 p1@1.1"},
		{2, "wait 0 proc write 0 10", ""},
		{1, "unlock 0 proc 0 0", "done"},
	}
	for _, step := range steps {
		reply, err := cluster.Call(step.node, 1, step.operation)
		if err != nil || reply != step.reply {
			t.Fatalf("%s of node %d: %q, %v", step.operation, step.node, reply, err)
		}
	}
	for range [20]int{} {
		if err := cluster.Tick(); err != nil {
			t.Fatal(err)
		}
	}
	if reply := cluster.Replies["2.1.4"]; reply != "done" {
		t.Fatalf("the wait got %q", reply)
	}
}

func TestASeatAlone(t *testing.T) {
	seat, err := New(program(t), "node 1", "--nodes=1", "--files=1", "--policy=exact")
	if err != nil {
		t.Fatal(err)
	}
	defer seat.Close()
	seat.Call(1, "spawn")
	seat.Call(1, "open 1 rw")
	asked, err := seat.Call(1, "wait 0 proc write 0 100")
	request := Message{"server 1", "request 1 1.1.3 wait write 0 99 0 99"}
	if err != nil || asked.Call() != "1.1.3" || len(asked.Sends) != 1 || asked.Sends[0] != request {
		t.Fatalf("the wait: %v, %v", asked, err)
	}
	_, err = seat.Call(1, "close 0")
	var refused *Refused
	if !errors.As(err, &refused) || refused.Code != 13 {
		t.Fatalf("a call beside an open one: %v", err)
	}
	ended, err := seat.Interrupt(1)
	if err != nil || ended.Replies["1.1.3"] != "interrupted" {
		t.Fatalf("the interrupt: %v, %v", ended, err)
	}
}
