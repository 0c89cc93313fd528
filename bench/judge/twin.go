// The search of Lowe, Testing for linearizability (2017), as Go programs have it: a list of the calls and returns that are
// left, from which a call that takes effect is lifted with its return, and a memory of the sets of calls and the states that
// were met. Written anew from the paper. It judges histories of a register or a queue in the form of events, from standard
// input, and says `linearizable`, `not linearizable` or `gave up`. `bench/judge/growth` compares it with `unicheck`.
package main

import (
	"bufio"
	"fmt"
	"os"
	"strconv"
	"strings"
)

type node struct {
	call       bool
	id         int
	words      []string
	reply      string
	match      *node
	next, prev *node
}

func (call *node) lift() {
	call.prev.next = call.next
	if call.next != nil {
		call.next.prev = call.prev
	}
	end := call.match
	end.prev.next = end.next
	if end.next != nil {
		end.next.prev = end.prev
	}
}

func (call *node) unlift() {
	end := call.match
	end.prev.next = end
	if end.next != nil {
		end.next.prev = end
	}
	call.prev.next = call
	if call.next != nil {
		call.next.prev = call
	}
}

// A state is a text: the number of a register, or the numbers of a queue with a space after each.
func apply(state string, words []string) (string, string) {
	switch words[0] {
	case "enq":
		return state + words[1] + " ", "ok"
	case "deq":
		if state == "" {
			return state, "empty"
		}
		end := strings.IndexByte(state, ' ')
		return state[end+1:], state[:end]
	case "read":
		return state, state
	case "write":
		return words[1], "ok"
	}
	if state != words[1] {
		return state, "false"
	}
	return words[2], "true"
}

type met struct {
	done  []uint64
	state string
}

type frame struct {
	call  *node
	state string
}

func hash(done []uint64, state string) uint64 {
	sum := uint64(14695981039346656037)
	for _, word := range done {
		sum = (sum ^ word) * 0x9E3779B97F4A7C15
		sum = sum<<29 | sum>>35
	}
	for i := 0; i < len(state); i++ {
		sum = (sum ^ uint64(state[i])) * 1099511628211
	}
	return sum
}

func known(memory map[uint64][]met, done []uint64, state string) bool {
	key := hash(done, state)
	for _, other := range memory[key] {
		same := other.state == state
		for i := 0; same && i < len(done); i++ {
			same = other.done[i] == done[i]
		}
		if same {
			return true
		}
	}
	memory[key] = append(memory[key], met{append([]uint64(nil), done...), state})
	return false
}

func search(head *node, state string, calls, pending, limit int) string {
	memory, stack, done := map[uint64][]met{}, []frame{}, make([]uint64, (calls+63)/64)
	left := calls - pending
	entry := head.next
	for rounds := 0; left > 0; rounds++ {
		if rounds == limit {
			return "gave up"
		}
		if entry != nil && entry.call {
			after, answer := apply(state, entry.words)
			if entry.reply == "" || entry.reply == answer {
				done[entry.id/64] |= 1 << (entry.id % 64)
				if !known(memory, done, after) {
					stack = append(stack, frame{entry, state})
					state = after
					entry.lift()
					if entry.reply != "" {
						left--
					}
					entry = head.next
					continue
				}
				done[entry.id/64] &^= 1 << (entry.id % 64)
			}
			entry = entry.next
			continue
		}
		if len(stack) == 0 {
			return "not linearizable"
		}
		last := stack[len(stack)-1]
		stack = stack[:len(stack)-1]
		state = last.state
		done[last.call.id/64] &^= 1 << (last.call.id % 64)
		last.call.unlift()
		if last.call.reply != "" {
			left++
		}
		entry = last.call.next
	}
	return "linearizable"
}

func main() {
	lines := bufio.NewScanner(os.Stdin)
	head := &node{}
	end, calls := head, 0
	open := map[string]*node{}
	add := func(it *node) {
		it.prev, end.next = end, it
		end = it
	}
	for lines.Scan() {
		words := strings.Fields(lines.Text())
		switch words[0] {
		case "call":
			it := &node{call: true, id: calls, words: words[2:]}
			calls++
			open[words[1]] = it
			add(it)
		case "return":
			it := open[words[1]]
			it.reply = words[2]
			it.match = &node{}
			add(it.match)
			delete(open, words[1])
		}
	}
	pending := len(open)
	for _, it := range open {
		it.match = &node{}
		add(it.match)
	}
	limit, start := 20000000, ""
	if os.Args[1] == "register" {
		start = "0"
	}
	if len(os.Args) > 2 {
		limit, _ = strconv.Atoi(os.Args[2])
	}
	fmt.Println(search(head, start, calls, pending, limit))
}
