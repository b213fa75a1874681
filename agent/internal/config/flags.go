package config

import (
	"errors"
	"flag"
	"fmt"
	"io"
)

// ErrHelp is returned after the help text was printed.
var ErrHelp = errors.New("help was requested")

// assignment is a flag with its value.
type assignment struct {
	setting *setting
	value   string
}

// Parse reads flags, and the files that they name. Flags override files, and later files override earlier ones. Lists
// and tags are merged. The help text is written to out.
func Parse(args []string, out io.Writer) (Config, error) {
	var assignments []assignment
	var files []string
	flags := newFlagSet(&assignments, &files)
	if err := flags.Parse(args); errors.Is(err, flag.ErrHelp) {
		printUsage(out)
		return Config{}, ErrHelp
	} else if err != nil {
		return Config{}, err
	}
	if flags.NArg() > 0 {
		return Config{}, fmt.Errorf(
			"unexpected argument %q, after which no flag would be read: write -FLAG VALUE, or for a switch -FLAG or -FLAG=false",
			flags.Arg(0),
		)
	}
	config := Default()
	for _, path := range files {
		if err := config.readFile(path); err != nil {
			return Config{}, fmt.Errorf("%s: %w", path, err)
		}
	}
	for _, assigned := range assignments {
		if err := assigned.setting.set(&config, assigned.value); err != nil {
			return Config{}, fmt.Errorf("-%s: %w", assigned.setting.flag, err)
		}
	}
	return config, config.validate()
}

// newFlagSet returns the flags. Parsing them appends each setting with its value to assignments, and the path of each file
// to read to files.
func newFlagSet(assignments *[]assignment, files *[]string) *flag.FlagSet {
	flags := flag.NewFlagSet("kitchenrue-agent", flag.ContinueOnError)
	flags.SetOutput(io.Discard)
	flags.Usage = func() {}
	for i := range settings {
		setting := &settings[i]
		if setting.flag != "" {
			flags.Var(&flagVar{setting, assignments}, setting.flag, setting.help)
		}
	}
	addFiles := func(read func(string) ([]string, error)) func(string) error {
		return func(path string) error {
			found, err := read(path)
			*files = append(*files, found...)
			return err
		}
	}
	oneFile := func(path string) ([]string, error) { return []string{path}, nil }
	flags.Func("config-file", "JSON file of settings (repeatable)", addFiles(oneFile))
	flags.Func("config-dir", "folder whose *.json files are read in the order of their names", addFiles(filesIn))
	return flags
}

// printUsage prints the help text.
func printUsage(out io.Writer) {
	fmt.Fprint(out, `usage: kitchenrue-agent [flags]
       kitchenrue-agent members [-rpc-addr ADDRESS] [-rpc-auth TOKEN]
       kitchenrue-agent runs [-unfinished] [-json] [-event NAME] [-payload TEXT] FILE
       kitchenrue-agent runs [-unfinished] [-json] [-event NAME] [-payload TEXT] NODE=FILE..

An agent for a Serf cluster that runs its handlers at most once for each event.

`)
	for _, setting := range settings {
		if setting.flag != "" {
			fmt.Fprintf(out, "  -%-20s %s\n", setting.flag, setting.help)
		}
	}
	fmt.Fprintf(out, "  -%-20s %s\n", "config-file", "JSON file of settings, with Serf's keys (repeatable)")
	fmt.Fprintf(out, "  -%-20s %s\n", "config-dir", "folder whose *.json files are read in the order of their names (repeatable)")
}

// flagVar collects a flag's values. Parse applies them after it has read the files.
type flagVar struct {
	setting     *setting
	assignments *[]assignment
}

func (v *flagVar) String() string   { return "" }
func (v *flagVar) IsBoolFlag() bool { return v.setting != nil && v.setting.isSwitch }
func (v *flagVar) Set(value string) error {
	*v.assignments = append(*v.assignments, assignment{v.setting, value})
	return nil
}
