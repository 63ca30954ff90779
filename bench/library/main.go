// Command library carries out sessions of ssabench by structured-merge-diff, the Go library of Server-Side Apply, and measures
// what its commands cost. It is what bench/library_side compares the program with, and is built by it:
//
//	GO111MODULE=off GOPATH=/usr/share/gocode go build -o PROGRAM bench/library/*.go
//	PROGRAM [-box SECONDS] SCHEMA OBJECT < LINES
//
// It reads a schema file and an object file, then lines as of a session, and prints a reply for each, of `apply`, `update`,
// `strip`, `undo`, `redo` and `show`; nothing is saved. A line that begins with `measure ` is an apply or update that is
// carried out again and again from the live state, which stays, until SECONDS of processor time are over (0.1 if they
// are not given), and then again the library's call alone; its reply is
//
//	{"bare":MS,"fair":MS,"reply":REPLY}
//
// Both are milliseconds of processor time of one command, with the garbage that was collected meanwhile. `fair` is of all
// that makes a reply of a line: reading its JSON, testing the object against the schema, the library's call, comparing the bodies,
// and printing the reply; `bare` is of the library's call alone, on values that are ready.
package main

import (
	"bufio"
	"bytes"
	"encoding/json"
	"flag"
	"fmt"
	"io"
	"os"
	"runtime"
	"syscall"
	"unsafe"

	"sigs.k8s.io/structured-merge-diff/typed"
)

func main() {
	// One processor, so that what is collected in the background is not hidden on another.
	runtime.GOMAXPROCS(1)
	box := flag.Float64("box", 0.1, "seconds of processor time that a command is measured for")
	flag.Parse()
	if flag.NArg() != 2 {
		fmt.Fprintln(os.Stderr, "usage: library [-box SECONDS] SCHEMA OBJECT < LINES")
		os.Exit(2)
	}
	if err := session(flag.Arg(0), flag.Arg(1), *box); err != nil {
		fmt.Fprintln(os.Stderr, "library:", err)
		os.Exit(3)
	}
}

// longest is how long a line may be, with `measure ` before it.
const longest = 1 << 21

func session(schemaName, objectName string, box float64) error {
	schemaText, err := os.ReadFile(schemaName)
	if err != nil {
		return err
	}
	objectText, err := os.ReadFile(objectName)
	if err != nil {
		return err
	}
	b, err := newBench(schemaText, objectText)
	if err != nil {
		return err
	}
	lines := bufio.NewReaderSize(os.Stdin, longest)
	replies := bufio.NewWriter(os.Stdout)
	for {
		line, err := lines.ReadSlice('\n')
		if err == io.EOF && len(line) == 0 {
			return nil
		}
		if err != nil && err != io.EOF {
			return err
		}
		reply := b.reply(line, box)
		replies.Write(reply)
		replies.WriteByte('\n')
		if err := replies.Flush(); err != nil {
			return err
		}
	}
}

func (b *bench) reply(line []byte, box float64) []byte {
	if given := bytes.TrimPrefix(line, []byte("measure ")); len(given) < len(line) {
		return b.measured(given, box)
	}
	return b.answer(line)
}

// measuredReply tells what a command costs, in milliseconds of processor time.
type measuredReply struct {
	Bare  float64         `json:"bare"`
	Fair  float64         `json:"fair"`
	Reply json.RawMessage `json:"reply"`
}

func (b *bench) measured(line []byte, box float64) []byte {
	var reply []byte
	fair := cost(box, func() { reply = b.replied(line) })
	measured := measuredReply{Fair: fair, Reply: reply}
	if c, given, err := b.prepared(line); err == nil {
		measured.Bare = cost(box, func() { b.called(c, given) })
	}
	return printed(measured)
}

// replied is the reply to a line, which leaves the bench as it is.
func (b *bench) replied(line []byte) []byte {
	c, err := readCommand(line)
	if err != nil {
		return printed(refusal(err))
	}
	_, reply := b.carriedOut(c)
	return printed(reply)
}

// prepared is all that the library's call needs of a line.
func (b *bench) prepared(line []byte) (*command, *typed.TypedValue, error) {
	c, err := readCommand(line)
	if err != nil {
		return nil, nil, err
	}
	given, err := b.typed(c.Object)
	return c, given, err
}

// cost is the milliseconds of one run of an action, which is run until the seconds are over, and three times at least, so
// that what is collected now and then is in it.
func cost(box float64, action func()) float64 {
	runtime.GC()
	begun := processorTime()
	for times := 1; ; times++ {
		action()
		if spent := processorTime() - begun; times >= 3 && spent >= box {
			return spent / float64(times) * 1000
		}
	}
}

// processorTime is the seconds that all threads of the process have spent on a processor.
func processorTime() float64 {
	const ofProcess = 2 // CLOCK_PROCESS_CPUTIME_ID
	var now syscall.Timespec
	if _, _, fault := syscall.Syscall(syscall.SYS_CLOCK_GETTIME, ofProcess, uintptr(unsafe.Pointer(&now)), 0); fault != 0 {
		panic(fault)
	}
	return float64(now.Nano()) / 1e9
}
