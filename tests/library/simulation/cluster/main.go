// Cluster runs a cluster of real nodes (package serf) in one process, in virtual time, over a simulated network and simulated disks, with
// failures that a seed determines. It writes what it found to a file: a line `violation ..` for each broken promise, and a last line with
// counts. Its exit status is 1 if a promise was broken.
//
//	cluster -seed N -out FILE [-log FILE] [-record FOLDER] [-length D] [-nodes N] [-first N] [-without N,N,..]
//	        [-planted NAME] [-stop] [-steps]
//
// tests/library/simulation.py builds this program, and explains its flags.
package main

import (
	crand "crypto/rand"
	"flag"
	"fmt"
	"io"
	"log"
	"math/rand"
	"os"
	"runtime/debug"
	"strconv"
	"strings"
	"sync"
	"time"

	"kitchenrue.example/simulation/planted"
)

// steadyRandom replaces the system's source of random bytes, so that each run reads the same bytes.
type steadyRandom struct {
	mu  sync.Mutex
	rng *rand.Rand
}

func (r *steadyRandom) Read(data []byte) (int, error) {
	r.mu.Lock()
	defer r.mu.Unlock()
	return r.rng.Read(data)
}

// parseNumbers parses a list of numbers that are separated by commas.
func parseNumbers(list string) (map[int]bool, error) {
	found := map[int]bool{}
	for _, word := range strings.FieldsFunc(list, func(r rune) bool { return r == ',' }) {
		number, err := strconv.Atoi(word)
		if err != nil {
			return nil, err
		}
		found[number] = true
	}
	return found, nil
}

func main() {
	seed := flag.Int64("seed", 1, "the `number` from which the run follows")
	out := flag.String("out", os.DevNull, "the `file` for what was found")
	logFile := flag.String("log", "", "the `file` for the full log")
	recordFolder := flag.String("record", "", "the `folder` for the records, logs and snapshots of the nodes")
	length := flag.Duration("length", 8*time.Minute, "for how long there are failures")
	nodes := flag.Int("nodes", 0, "the `number` of nodes; 0 is the one that the seed draws")
	first := flag.Int("first", 0, "run the first `number` of nodes only, and their steps")
	without := flag.String("without", "", "the `numbers` of steps to leave out")
	flag.StringVar(&planted.Name, "planted", "", "the `name` of the wrong body that is on")
	stops := flag.Bool("stop", false, "stop at the first broken promise")
	listSteps := flag.Bool("steps", false, "print the steps, and run nothing")
	flag.Parse()
	file, err := os.Create(*out)
	if err != nil {
		log.Fatal(err)
	}
	defer file.Close()
	omitted, err := parseNumbers(*without)
	if err != nil {
		log.Fatal(err)
	}
	p := newPlan(*seed, *length, *nodes)
	p.reduce(omitted, *first)
	if *listSteps {
		for _, s := range p.steps {
			fmt.Fprintf(file, "step %s\n", s)
		}
		return
	}
	if run(p, *seed, *logFile, *recordFolder, file, *stops) > 0 {
		os.Exit(1)
	}
}

// run runs a plan, and returns the number of broken promises. If stops is set, it exits at the first one.
func run(p plan, seed int64, logFile, recordFolder string, out io.Writer, stops bool) int {
	// (cluster.sample collects garbage)
	debug.SetGCPercent(-1)
	rand.Seed(seed)
	crand.Reader = &steadyRandom{rng: rand.New(rand.NewSource(seed))}
	var fullLog io.Writer
	if logFile != "" {
		file, err := os.Create(logFile)
		if err != nil {
			log.Fatal(err)
		}
		defer file.Close()
		fullLog = file
	}
	j := newJournal(fullLog)
	log.SetOutput(io.Discard)
	j.add("plan %+v", p.settings)
	c := newCluster(p, seed, j)
	c.isRecording = recordFolder != ""
	if stops {
		c.ledger.onViolation = func() {
			fmt.Fprintf(out, "violation %s\n", c.ledger.violations[0])
			j.sum()
			os.Exit(1)
		}
	}
	c.run()
	for _, violation := range c.ledger.violations {
		fmt.Fprintf(out, "violation %s\n", violation)
	}
	c.writeCounts(out, seed)
	if c.isRecording {
		if err := c.writeEvidence(recordFolder); err != nil {
			log.Fatal(err)
		}
	}
	return len(c.ledger.violations)
}

// writeCounts writes the last line of a run.
func (c *cluster) writeCounts(out io.Writer, seed int64) {
	lives, failures := 0, 0
	for _, n := range c.nodes {
		lives += n.lives
	}
	for _, s := range c.plan.steps {
		if s.isFailure() {
			failures++
		}
	}
	fmt.Fprintf(out, "end seed %d nodes %d lives %d failures %d fired %d accepted %d handed %d packets %d seconds %.0f trace %016x\n",
		seed, len(c.nodes), lives, failures, c.ledger.attempts, c.ledger.accepted, c.ledger.deliveryCount, c.network.traffic(),
		c.journal.elapsed().Seconds(), c.journal.sum())
}
