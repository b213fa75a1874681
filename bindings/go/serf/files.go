package serf

import (
	"bufio"
	"io"

	"kitchenrue.example/serfagent"
)

// maxLineLength is the maximum length in bytes of a line that readLines reads. This package writes no longer line.
const maxLineLength = 64 << 10

// readLines reads a text of any length line by line. The last line needs no newline. It skips lines longer than
// maxLineLength.
func readLines(text io.Reader, apply func(line string)) error {
	reader := bufio.NewReaderSize(text, maxLineLength)
	wasPartial := false
	for {
		line, isPartial, err := reader.ReadLine()
		if err == io.EOF {
			return nil
		}
		if err != nil {
			return err
		}
		if !wasPartial && !isPartial {
			apply(string(line))
		}
		wasPartial = isPartial
	}
}

// readFileLines is readLines for a regular file.
func readFileLines(path string, apply func(line string)) error {
	file, err := serfagent.OpenPlain(path)
	if err != nil {
		return err
	}
	defer file.Close()
	return readLines(file, apply)
}
