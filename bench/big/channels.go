// The work of the generated file by hand, as channels.rs has it, over goroutines and their channels.
package main

import (
	"fmt"
	"os"
	"strconv"
	"sync"
)

type message struct {
	more bool
	n    int64
	ends *ends
}

type ends struct {
	numbers chan message
	sums    chan message
}

func main() {
	turns, err := strconv.ParseInt(os.Args[1], 10, 64)
	if err != nil {
		panic(err)
	}
	var all sync.WaitGroup
	all.Add(15)
	for number := int64(1); number <= 5; number++ {
		numbers, sums, over := make(chan message, 64), make(chan message, 64), make(chan message, 64)
		go func(number int64) {
			defer all.Done()
			for i := int64(0); i < turns; i++ {
				numbers <- message{more: true}
				numbers <- message{n: number}
			}
			numbers <- message{}
			if sum := <-sums; sum.n != number*turns {
				panic("another sum")
			}
		}(number)
		go func() {
			defer all.Done()
			over <- message{ends: &ends{numbers, sums}}
		}()
		go func() {
			defer all.Done()
			end := (<-over).ends
			sum := int64(0)
			for (<-end.numbers).more {
				sum += (<-end.numbers).n
			}
			end.sums <- message{n: sum}
		}()
	}
	all.Wait()
	fmt.Println("done")
}
