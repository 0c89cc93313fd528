// Package recorder records what goroutines do with an object, as lines that unicheck reads: NAME CALL -> REPLY BEGIN END.
//
// A number is drawn from one counter before a call begins, and another after it has returned, so calls that the lines put
// one after the other were made so. Each goroutine has a log of its own, and the logs are printed when all are done.
package recorder

import (
	"fmt"
	"io"
	"sync/atomic"
)

var clock uint64

type call struct {
	words, reply string
	begin, end   uint64
	returned     bool
}

// Log is the part of one goroutine, whose name is 1 to 20 letters and digits.
type Log struct {
	Name  string
	calls []call
}

// Call makes a call whose body returns the reply, as log.Call("enq 7", func() string { q.Put(7); return "ok" }).
func (log *Log) Call(words string, body func() string) string {
	log.calls = append(log.calls, call{words: words, reply: "?"})
	made := &log.calls[len(log.calls)-1]
	made.begin = atomic.AddUint64(&clock, 1)
	reply := body()
	made.end = atomic.AddUint64(&clock, 1)
	made.reply, made.returned = reply, true
	return reply
}

// Print writes the lines.
func (log *Log) Print(out io.Writer) {
	for _, made := range log.calls {
		fmt.Fprintf(out, "%s %s -> %s %d", log.Name, made.words, made.reply, made.begin)
		if made.returned {
			fmt.Fprintf(out, " %d", made.end)
		}
		fmt.Fprintln(out)
	}
}
