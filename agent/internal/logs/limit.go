package logs

import (
	"fmt"
	"strings"
	"time"
)

// Packets can make memberlist, the node and the agent write a line each, so the log limits each kind of line to
// maxLines in an interval. After the interval, one line reports how many lines were left out.
const (
	maxLines      = 10
	limitInterval = 10 * time.Second
	// maxKinds is the maximum number of kinds that have separate limits. All further kinds share one limit.
	maxKinds = 64
)

// limit limits the lines of a kind.
type limit struct {
	count, leftOut int
	// lastLine returns the latest line that was left out, and level is its level.
	lastLine func() string
	level    Level
}

// kindOf returns the kind of a line: its source and its first words. It returns an empty text for a line that isn't
// limited: one below Info, one of another source, or one about a change of members. LimitedLazyf names the kind itself.
func kindOf(level Level, text string) string {
	if level < Info {
		return ""
	}
	_, text, _ = strings.Cut(text, "["+level.String()+"] ")
	if !strings.HasPrefix(text, "memberlist: ") && !strings.HasPrefix(text, "serf: ") || strings.HasPrefix(text, "serf: EventMember") {
		return ""
	}
	words := strings.SplitN(text, " ", 5)
	if len(words) > 4 {
		words = words[:4]
	}
	return strings.Join(words, " ")
}

// isAboveLimit counts a line of a kind, and reports whether it has to be left out. An empty kind isn't limited. text
// returns the line. The caller holds mu.
func (l *Log) isAboveLimit(kind string, level Level, text func() string) bool {
	if kind == "" {
		return false
	}
	kindLimit := l.limits[kind]
	if kindLimit == nil && len(l.limits) >= maxKinds {
		kind = "further kinds"
		kindLimit = l.limits[kind]
	}
	if kindLimit == nil {
		kindLimit = &limit{}
		l.limits[kind] = kindLimit
		time.AfterFunc(l.interval, func() { l.endInterval(kind) })
	}
	if kindLimit.count++; kindLimit.count <= maxLines {
		return false
	}
	kindLimit.leftOut, kindLimit.lastLine, kindLimit.level = kindLimit.leftOut+1, text, level
	return true
}

// endInterval forgets a kind, so that its next line begins a new interval. It writes how many lines of the kind were
// left out.
func (l *Log) endInterval(kind string) {
	l.mu.Lock()
	defer l.mu.Unlock()
	kindLimit := l.limits[kind]
	delete(l.limits, kind)
	if kindLimit == nil || kindLimit.leftOut == 0 {
		return
	}
	_, last, _ := strings.Cut(kindLimit.lastLine(), "["+kindLimit.level.String()+"] ")
	l.write(kindLimit.level, fmt.Sprintf("%s[%s] agent: %d more lines of this kind were left out within %v, the latest: %s",
		time.Now().Format(timeLayout), kindLimit.level, kindLimit.leftOut, l.interval, last))
}
