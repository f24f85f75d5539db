package seat

import "fmt"

// Cluster is a cluster of seats. Messages come in the order in which they are sent.
type Cluster struct {
	// Replies has the replies so far, by the names of calls.
	Replies map[string]string
	seats   map[string]*Seat
	actors  []string
	sent    []Message
}

// NewCluster starts the nodes, and a token server for each file. The policy is "wide" or "exact".
func NewCluster(program string, nodes, files int, policy string) (*Cluster, error) {
	c := &Cluster{Replies: map[string]string{}, seats: map[string]*Seat{}}
	for node := 1; node <= nodes; node++ {
		c.actors = append(c.actors, fmt.Sprintf("node %d", node))
	}
	for file := 1; file <= files; file++ {
		c.actors = append(c.actors, fmt.Sprintf("server %d", file))
	}
	options := []string{fmt.Sprintf("--nodes=%d", nodes), fmt.Sprintf("--files=%d", files), "--policy=" + policy}
	for _, actor := range c.actors {
		seat, err := New(program, actor, options...)
		if err != nil {
			c.Close()
			return nil, err
		}
		c.seats[actor] = seat
	}
	return c, nil
}

// Call has a process make a call, and brings all messages. It returns the reply, or "" while the call is open.
func (c *Cluster) Call(node, process int, operation string) (string, error) {
	block, err := c.seats[fmt.Sprintf("node %d", node)].Call(process, operation)
	if err != nil {
		return "", err
	}
	c.take(block)
	if err := c.Settle(); err != nil {
		return "", err
	}
	return c.Replies[block.Call()], nil
}

// Settle brings all messages, also those that are sent meanwhile.
func (c *Cluster) Settle() error {
	for len(c.sent) > 0 {
		message := c.sent[0]
		c.sent = c.sent[1:]
		block, err := c.seats[message.To].Deliver(message.Text)
		if err != nil {
			return err
		}
		c.take(block)
	}
	return nil
}

// Tick has each actor try again what is due, and brings all messages.
func (c *Cluster) Tick() error {
	for _, actor := range c.actors {
		block, err := c.seats[actor].Tick()
		if err != nil {
			return err
		}
		c.take(block)
	}
	return c.Settle()
}

// Close ends the seats.
func (c *Cluster) Close() {
	for _, seat := range c.seats {
		seat.Close()
	}
}

func (c *Cluster) take(block *Block) {
	for call, reply := range block.Replies {
		c.Replies[call] = reply
	}
	c.sent = append(c.sent, block.Sends...)
}
