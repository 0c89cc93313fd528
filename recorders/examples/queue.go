// A queue under a lock, which four goroutines share: right.
package main

import (
	"fmt"
	"os"
	"recorder"
	"sync"
)

func main() {
	var lock sync.Mutex
	var queue []int
	logs := make([]recorder.Log, 4)
	var all sync.WaitGroup
	for i := range logs {
		logs[i].Name = fmt.Sprintf("T%d", i)
		all.Add(1)
		go func(thread int) {
			defer all.Done()
			for call := 0; call < 2000; call++ {
				number := thread*2000 + call
				if call%2 == 0 {
					logs[thread].Call(fmt.Sprintf("enq %d", number), func() string {
						lock.Lock()
						defer lock.Unlock()
						queue = append(queue, number)
						return "ok"
					})
				} else {
					logs[thread].Call("deq", func() string {
						lock.Lock()
						defer lock.Unlock()
						if len(queue) == 0 {
							return "empty"
						}
						taken := queue[0]
						queue = queue[1:]
						return fmt.Sprint(taken)
					})
				}
			}
		}(i)
	}
	all.Wait()
	for i := range logs {
		logs[i].Print(os.Stdout)
	}
}
