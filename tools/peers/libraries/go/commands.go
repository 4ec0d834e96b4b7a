package main

import (
	"bytes"
	"encoding/binary"
	"fmt"
	"math/rand"
	"os"
	"strings"
	"syscall"
	"time"
	"unsafe"
)

// types are those of the calls, as names of inputs end with them.
var types = []string{"public_key", "private_key", "multi_prime_key", "pss", "pss_algorithm", "oaep", "oaep_algorithm",
	"container"}

func readFile(name string) []byte {
	octets, err := os.ReadFile(name)
	if err != nil {
		panic(err)
	}
	return octets
}

// digit tells of one input what check.c tells.
func digit(f call, input []byte) byte {
	if accepted, _ := f(input, false); !accepted {
		return '0'
	}
	_, out := f(input, true)
	switch {
	case out == nil:
		return '4'
	case bytes.Equal(out, input):
		return '2'
	default:
		return '3'
	}
}

// processorTime is what this process took, in all threads.
func processorTime() time.Duration {
	const clockProcess = 2
	var it syscall.Timespec
	syscall.Syscall(syscall.SYS_CLOCK_GETTIME, clockProcess, uintptr(unsafe.Pointer(&it)), 0)
	return time.Duration(it.Nano())
}

func check(corpus string, to string) {
	var answers []byte
	accepted := 0
	for rest := readFile(corpus); len(rest) > 0; {
		end := 6 + int(binary.LittleEndian.Uint32(rest[2:]))
		answer := digit(calls[rest[0]], append([]byte(nil), rest[6:end]...))
		if answer != '0' {
			accepted++
		}
		answers = append(answers, answer)
		rest = rest[end:]
	}
	if err := os.WriteFile(to, answers, 0644); err != nil {
		panic(err)
	}
	fmt.Printf("%-16s %d inputs, %d accepted, %.1f s\n", "Go", len(answers), accepted, processorTime().Seconds())
}

// leastTime of a round, so long that each round has its share of collecting garbage.
const leastTime = 20 * time.Millisecond

// nanoseconds of one call, from calls on one input after the other that take at least leastTime together.
func nanoseconds(f call, inputs [][]byte, write bool) float64 {
	done := 0
	var taken time.Duration
	for step := 1; taken < leastTime; step *= 2 {
		began := processorTime()
		for i := 0; i < step; i++ {
			f(inputs[(done+i)%len(inputs)], write)
		}
		taken += processorTime() - began
		done += step
	}
	return float64(taken.Nanoseconds()) / float64(done)
}

// readSet has the inputs of a file of records, in one random order.
func readSet(name string) (inputs [][]byte) {
	for rest := readFile(name); len(rest) > 0; {
		end := 6 + int(binary.LittleEndian.Uint32(rest[2:]))
		inputs = append(inputs, append([]byte(nil), rest[6:end]...))
		rest = rest[end:]
	}
	rand.New(rand.NewSource(1)).Shuffle(len(inputs), func(i, j int) { inputs[i], inputs[j] = inputs[j], inputs[i] })
	return inputs
}

// accepts tells whether each is accepted.
func accepts(f call, inputs [][]byte, write bool) bool {
	for _, input := range inputs {
		if accepted, _ := f(input, write); !accepted {
			return false
		}
	}
	return true
}

// speed takes both times of a set, if each of it is accepted.
func speed(folder string, name string) {
	inputs := readSet(folder + "/" + name)
	for kind, it := range types {
		if !strings.HasSuffix(name, "."+it) {
			continue
		}
		for written := 0; written < 2; written++ {
			if !accepts(calls[kind], inputs, written == 1) {
				return
			}
			best := nanoseconds(calls[kind], inputs, written == 1)
			for round := 1; round < 9; round++ {
				if it := nanoseconds(calls[kind], inputs, written == 1); it < best {
					best = it
				}
			}
			fmt.Printf("Go|%s|%d|%.1f\n", name, written, best)
		}
	}
}
