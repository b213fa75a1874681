package serf

import (
	"bytes"
	"encoding/hex"
	"math"
	"strconv"
	"strings"
)

// These are the prefixes of lines in the snapshot. In addition to the library's lines, this package writes lines that
// say how the handlers of an event ended (`#ran`) and which process runs a handler (`#process`). The library skips
// these two kinds, as it skips each line that begins with # and a word that it doesn't know (docs/SPEC.md).
// docs/HOST.md describes their format.
const (
	openPrefix    = "#open "
	begunPrefix   = "#begun "
	donePrefix    = "#done "
	ranPrefix     = "#ran "
	processPrefix = "#process "
)

// These are the values of HandlerRun.Status for a handler that did not exit by itself. If a signal ended the handler,
// the number of the signal follows RanSignal. All other values are exit statuses in decimal digits.
const (
	RanSignal       = "signal-"
	RanTimedOut     = "timed-out"
	RanNotStarted   = "not-started"
	RanCutOff       = "cut-off"
	RanStillRunning = "still-running"
)

// HandlerRun says how a handler of an event ended.
type HandlerRun struct {
	// Handler is the name of the handler, or empty if it is not known.
	Handler string
	// Status is how it ended, as a word: "0" is the exit status 0.
	Status string
}

// maxWordLength is the maximum length in bytes of a handler's name and of a status in a line.
const maxWordLength = 128

// lineWord returns a text as one word of a line. It replaces each character other than letters, digits and .:_- by _.
func lineWord(text string) string {
	if len(text) > maxWordLength {
		text = text[:maxWordLength]
	}
	return strings.Map(func(r rune) rune {
		if r >= 'a' && r <= 'z' || r >= 'A' && r <= 'Z' || r >= '0' && r <= '9' || strings.ContainsRune(".:_-", r) {
			return r
		}
		return '_'
	}, text)
}

// keyWords returns the words that identify an event in a line: its time in decimal digits, and its name and its payload
// in hex.
func (k eventKey) keyWords() string {
	return strconv.FormatUint(uint64(k.time), 10) + " " + hex.EncodeToString([]byte(k.name)) + " " + hex.EncodeToString([]byte(k.payload))
}

// ranLine returns the line that says how the handlers of an event ended. If there are no runs, the line says only that
// handlers began.
func ranLine(key eventKey, runs []HandlerRun) string {
	var line strings.Builder
	line.WriteString(ranPrefix + key.keyWords())
	for _, run := range runs {
		line.WriteString(" " + lineWord(run.Handler) + "=" + lineWord(run.Status))
	}
	return line.String() + "\n"
}

// completeAfterLine returns a line that makes a promise about all events later than this time: if a handler of such an event
// began and the event is done, the file has its `#ran` line.
func completeAfterLine(time LamportTime) string {
	return ranPrefix + strconv.FormatUint(uint64(time), 10) + "\n"
}

// processLine returns the line that says which process runs a handler of an event.
func processLine(key eventKey, process HandlerProcess) string {
	return processPrefix + key.keyWords() + " " + lineWord(process.Handler) + " " + strconv.Itoa(process.PID) + " " +
		strconv.FormatUint(process.Start, 10) + " " + lineWord(process.Boot) + "\n"
}

// parseKey reads an event's time, name and payload from the first words of a line, and returns the words after them.
func parseKey(words []string) (key eventKey, rest []string, ok bool) {
	if len(words) < 3 {
		return eventKey{}, nil, false
	}
	time, timeErr := strconv.ParseUint(words[0], 10, 64)
	name, nameErr := hex.DecodeString(words[1])
	payload, payloadErr := hex.DecodeString(words[2])
	if timeErr != nil || nameErr != nil || payloadErr != nil || time == 0 || time == math.MaxUint64 {
		return eventKey{}, nil, false
	}
	return eventKey{LamportTime(time), string(name), string(payload)}, words[3:], true
}

// parseRuns reads the words of a `#ran` line.
func parseRuns(words []string) (runs []HandlerRun, ok bool) {
	for _, word := range words {
		handler, status, ok := strings.Cut(word, "=")
		if !ok || status == "" || lineWord(handler) != handler || lineWord(status) != status {
			return nil, false
		}
		runs = append(runs, HandlerRun{handler, status})
	}
	return runs, true
}

// parseProcess reads the words of a `#process` line.
func parseProcess(words []string) (process HandlerProcess, ok bool) {
	if len(words) != 4 {
		return HandlerProcess{}, false
	}
	pid, pidErr := strconv.ParseUint(words[1], 10, 31)
	start, startErr := strconv.ParseUint(words[2], 10, 64)
	if pidErr != nil || startErr != nil || pid == 0 || lineWord(words[0]) != words[0] {
		return HandlerProcess{}, false
	}
	return HandlerProcess{words[0], int(pid), start, words[3]}, true
}

// handlerText has the information about handlers that this package reads from a snapshot's text. The library reads the
// rest.
type handlerText struct {
	// events are the events that the text names, in the order of their first lines.
	events []eventKey
	// begunCounts counts the `#begun` lines of each event. runs has the runs of its last `#ran` line, and processes the
	// process of its last `#process` line.
	begunCounts map[eventKey]int
	runs        map[eventKey][]HandlerRun
	processes   map[eventKey]HandlerProcess
	// ended has the events with a `#done` or a `#ran` line, in the order in which the first of these lines appears.
	ended []eventKey
	// completeAfter is the time in the last line of the kind that completeAfterLine returns. hasCompleteAfter is false if the text has
	// no such line.
	completeAfter    LamportTime
	hasCompleteAfter bool
	// minimum is the smallest time from which on the text has all events.
	minimum LamportTime
}

// readHandlerText reads the text of a snapshot. Like the library, it ignores lines about handlers before the first line
// `#done TIME`, and a last line without a newline.
func readHandlerText(text []byte) *handlerText {
	t := &handlerText{
		begunCounts: map[eventKey]int{}, runs: map[eventKey][]HandlerRun{}, processes: map[eventKey]HandlerProcess{}, minimum: 1,
	}
	known, hasEnded, isTracked := map[eventKey]bool{}, map[eventKey]bool{}, false
	for lineEnd := bytes.IndexByte(text, '\n'); lineEnd >= 0; lineEnd = bytes.IndexByte(text, '\n') {
		line := text[:lineEnd]
		text = text[lineEnd+1:]
		prefix, words := handlerWords(line)
		switch {
		case prefix == "":
			t.applyMinimum(line)
			continue
		case len(words) == 1:
			isTracked = t.applyTime(prefix, words[0], isTracked)
			continue
		case !isTracked && prefix != eventPrefix:
			continue
		}
		key, rest, ok := parseKey(words)
		if !ok || !t.applyEventLine(prefix, key, rest) {
			continue
		}
		if !known[key] {
			known[key] = true
			t.events = append(t.events, key)
		}
		if (prefix == donePrefix || prefix == ranPrefix) && !hasEnded[key] {
			hasEnded[key] = true
			t.ended = append(t.ended, key)
		}
	}
	return t
}

// handlerPrefixes are the prefixes of the lines about an event.
var handlerPrefixes = []string{eventPrefix, openPrefix, begunPrefix, donePrefix, ranPrefix, processPrefix}

// handlerWords returns the prefix of a line about an event, and the words after the prefix. For any other line, the
// prefix is empty.
func handlerWords(line []byte) (prefix string, words []string) {
	for _, prefix := range handlerPrefixes {
		if bytes.HasPrefix(line, []byte(prefix)) {
			return prefix, strings.Split(string(line[len(prefix):]), " ")
		}
	}
	return "", nil
}

// applyMinimum raises the minimum if a line says that the file does not keep earlier events. This is either a minimum's
// line or a clock line whose time has no leading zero: all events up to the time of such a clock line count as handed
// out.
func (t *handlerText) applyMinimum(line []byte) {
	isMinimum, isClock := bytes.HasPrefix(line, []byte(eventMinimumPrefix)), bytes.HasPrefix(line, []byte(eventClockPrefix))
	if !isMinimum && !isClock {
		return
	}
	digits := line[len(eventClockPrefix):]
	if isMinimum {
		digits = line[len(eventMinimumPrefix):]
	}
	time, err := strconv.ParseUint(string(digits), 10, 64)
	if err != nil || isClock && digits[0] == '0' {
		return
	}
	if isClock && time < math.MaxUint64 {
		time++
	}
	if LamportTime(time) > t.minimum {
		t.minimum = LamportTime(time)
	}
}

// applyTime applies a line that has only a time. It returns whether the file tracks handlers from this line on.
func (t *handlerText) applyTime(prefix, word string, isTracked bool) bool {
	if word == "" || strings.Trim(word, "0123456789") != "" {
		return isTracked
	}
	if time, err := strconv.ParseUint(word, 10, 64); prefix == ranPrefix && isTracked && err == nil {
		t.completeAfter, t.hasCompleteAfter = LamportTime(time), true
	}
	return isTracked || prefix == donePrefix
}

// applyEventLine applies a line about an event. It returns false if the line doesn't have the form of its kind.
func (t *handlerText) applyEventLine(prefix string, key eventKey, rest []string) (ok bool) {
	switch prefix {
	case ranPrefix:
		var runs []HandlerRun
		if runs, ok = parseRuns(rest); ok {
			t.runs[key] = runs
		}
		return ok
	case processPrefix:
		var process HandlerProcess
		if process, ok = parseProcess(rest); ok {
			t.processes[key] = process
		}
		return ok
	case begunPrefix:
		if len(rest) == 0 {
			t.begunCounts[key]++
		}
	}
	return len(rest) == 0
}
