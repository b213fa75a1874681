package logs

import (
	"fmt"
	"log/syslog"
	"strings"
	"time"
)

// SyslogTag is the tag of the lines. It is Serf's tag, so that an operator's syslog rules still apply.
const SyslogTag = "serf"

// drainTimeout is the maximum time for which the end of the log waits for syslog.
const drainTimeout = time.Second

// facilities are syslog's facilities by their names in Serf's configuration.
var facilities = map[string]syslog.Priority{
	"KERN": syslog.LOG_KERN, "USER": syslog.LOG_USER, "MAIL": syslog.LOG_MAIL, "DAEMON": syslog.LOG_DAEMON, "AUTH": syslog.LOG_AUTH,
	"SYSLOG": syslog.LOG_SYSLOG, "LPR": syslog.LOG_LPR, "NEWS": syslog.LOG_NEWS, "UUCP": syslog.LOG_UUCP, "CRON": syslog.LOG_CRON,
	"AUTHPRIV": syslog.LOG_AUTHPRIV, "FTP": syslog.LOG_FTP, "LOCAL0": syslog.LOG_LOCAL0, "LOCAL1": syslog.LOG_LOCAL1,
	"LOCAL2": syslog.LOG_LOCAL2, "LOCAL3": syslog.LOG_LOCAL3, "LOCAL4": syslog.LOG_LOCAL4, "LOCAL5": syslog.LOG_LOCAL5,
	"LOCAL6": syslog.LOG_LOCAL6, "LOCAL7": syslog.LOG_LOCAL7,
}

// IsFacility reports whether syslog has a facility of this name.
func IsFacility(name string) bool {
	_, ok := facilities[strings.ToUpper(name)]
	return ok
}

// severities are the syslog severities of the levels, as in Serf.
var severities = map[Level]func(*syslog.Writer, string) error{
	Trace: (*syslog.Writer).Debug,
	Debug: (*syslog.Writer).Info,
	Info:  (*syslog.Writer).Notice,
	Warn:  (*syslog.Writer).Warning,
	Err:   (*syslog.Writer).Err,
}

// ToSyslog also sends the lines that the log writes from now on to syslog, until stop is called. If network and address
// are empty, they go to the machine's own syslog. A syslog that hangs doesn't delay the log: at most MaxWaiting lines
// wait for it, and further ones are dropped.
func (l *Log) ToSyslog(network, address, facility string) (stop func(), err error) {
	priority, ok := facilities[strings.ToUpper(facility)]
	if !ok {
		return nil, fmt.Errorf("syslog has no facility %q", facility)
	}
	out, err := syslog.Dial(network, address, priority|syslog.LOG_NOTICE, SyslogTag)
	if err != nil {
		return nil, err
	}
	lines, done := make(chan string, MaxWaiting), make(chan struct{})
	l.mu.Lock()
	defer l.mu.Unlock()
	l.syslog = lines
	go func() {
		defer close(done)
		defer out.Close()
		for line := range lines {
			sendToSyslog(out, line)
		}
	}()
	return func() {
		l.mu.Lock()
		l.syslog = nil
		l.mu.Unlock()
		close(lines)
		select {
		case <-done:
		case <-time.After(drainTimeout):
		}
	}, nil
}

// sendToSyslog sends a line without its time and level, since syslog adds its own.
func sendToSyslog(out *syslog.Writer, line string) {
	level := lineLevel(line)
	if _, rest, ok := strings.Cut(line, "["+level.String()+"] "); ok {
		line = rest
	}
	// If syslog fails, the line is still in the output.
	_ = severities[level](out, strings.ReplaceAll(line, "\n", " | "))
}
