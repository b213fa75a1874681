// This program reads commands for a store, one on each line, and runs them. tests/library/embed/store_driver.c
// describes the commands.
package main

import (
	"bufio"
	"encoding/hex"
	"errors"
	"fmt"
	"os"
	"os/signal"
	"strings"
	"syscall"

	"kitchenrue.example/serfagent"
)

var errorNames = map[error]string{
	serfagent.ErrLocked:        "Locked",
	serfagent.ErrMissingFolder: "MissingFolder",
	serfagent.ErrNotAFile:      "NotAFile",
	serfagent.ErrReadOnly:      "ReadOnly",
	serfagent.ErrFull:          "Full",
	serfagent.ErrBroken:        "Broken",
}

// nameOf returns the name that the output has for an error of a store.
func nameOf(err error) string {
	for kind, name := range errorNames {
		if errors.Is(err, kind) {
			return name
		}
	}
	return "Failed"
}

// runCommand runs a command on a store, and returns what to print before the result.
func runCommand(store **serfagent.Store, command, word string) (text string, err error) {
	if command == "open" {
		if *store != nil {
			(*store).Close()
		}
		*store, err = serfagent.OpenStore(word)
		return "", err
	}
	if *store == nil {
		return "", serfagent.ErrBroken
	}
	switch command {
	case "read":
		data, err := (*store).Read()
		return hex.EncodeToString(data) + " ", err
	case "append", "replace":
		data, err := hex.DecodeString(word)
		if err != nil {
			return "", err
		}
		if command == "append" {
			return "", (*store).Append(data)
		}
		return "", (*store).Replace(data)
	}
	err = (*store).Close()
	*store = nil
	return "", err
}

func main() {
	// Without the signal, a write beyond the limit for the file's size returns an error.
	signal.Ignore(syscall.SIGXFSZ)
	stores := [2]*serfagent.Store{}
	lines := bufio.NewScanner(os.Stdin)
	for lines.Scan() {
		number, line := 0, lines.Text()
		if strings.HasPrefix(line, "1 ") {
			number, line = 1, line[2:]
		}
		words := strings.SplitN(line+" ", " ", 2)
		text, err := runCommand(&stores[number], words[0], strings.TrimSuffix(words[1], " "))
		if err != nil {
			text = nameOf(err)
		} else {
			text += "ok"
		}
		fmt.Println(text)
	}
}
