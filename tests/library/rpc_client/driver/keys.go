package main

import (
	"fmt"
	"sort"

	"github.com/hashicorp/serf/client"
)

// Two keys, of 32 bytes each.
const (
	oldKey = "MDEyMzQ1Njc4OWFiY2RlZjAxMjM0NTY3ODlhYmNkZWY="
	newKey = "ZmVkY2JhOTg3NjU0MzIxMGZlZGNiYTk4NzY1NDMyMTA="
)

// maxTries is the maximum number of times that a key command is sent, since each answer is a single packet and may be
// lost.
const maxTries = 10

// messageLines returns each node's answer as a sentence, sorted.
func messageLines(messages map[string]string) []string {
	found := []string{}
	for node, message := range messages {
		found = append(found, fmt.Sprintf("%s says %q", node, message))
	}
	sort.Strings(found)
	return found
}

// printKeyCommand prints the result of a key command. It repeats the command until this number of nodes have answered
// with a message or, if nodes is 0, until the command succeeds.
func (r *run) printKeyCommand(what string, nodes int, run func(string) (map[string]string, error), key string) {
	messages, err := run(key)
	for i := 1; i < maxTries && (len(messages) != nodes || nodes == 0 && err != nil); i++ {
		messages, err = run(key)
	}
	r.printFact(what+", error", err)
	r.printFact(what+", messages", messageLines(messages))
}

// printKeys prints the keys that the nodes have. It repeats list-keys until it succeeds or, if isRefused is true, until
// it fails.
func (r *run) printKeys(what string, on *agent, isRefused bool) {
	keys, count, messages, err := on.ListKeys()
	for i := 1; i < maxTries && (err != nil) != isRefused; i++ {
		keys, count, messages, err = on.ListKeys()
	}
	r.printFact(what+", error", err)
	r.printFact(what+", messages", messageLines(messages))
	r.printFact(what, fmt.Sprintf("%d keys, the old one at %d and the new one at %d of %d", len(keys), keys[oldKey], keys[newKey], count))
}

// tryKeysWithoutEncryption sends key commands to nodes that have no keys.
func (r *run) tryKeysWithoutEncryption() {
	r.printKeyCommand("install-key without encryption", 2, r.a.InstallKey, newKey)
	r.printKeyCommand("use-key without encryption", 2, r.a.UseKey, newKey)
	r.printKeyCommand("remove-key without encryption", 2, r.a.RemoveKey, newKey)
	r.printKeys("list-keys without encryption", r.a, true)
	messages, err := r.a.InstallKey("bad")
	r.printFact("install-key of a bad key, error", err)
	r.printFact("install-key of a bad key, messages", messageLines(messages))
}

// tryKeys changes the key of two nodes.
func (r *run) tryKeys() {
	one, other := r.startWith("sesame", "k", 7, "-encrypt="+oldKey), r.startAgent("l", 8, "-encrypt="+oldKey)
	_, err := one.Join([]string{other.addr}, false)
	r.printFact("join with a key, error", err)
	r.printFact("join with a key is seen", one.waitForStatus("l", "alive") && other.waitForStatus("k", "alive"))
	r.printKeys("list-keys at first", one, false)
	for _, step := range []struct {
		what  string
		run   func(string) (map[string]string, error)
		key   string
		nodes int
	}{
		{"use-key of no key", one.UseKey, newKey, 2}, {"install-key", one.InstallKey, newKey, 0},
		{"install-key again", one.InstallKey, newKey, 0},
		{"remove-key of the key in use", one.RemoveKey, oldKey, 2}, {"use-key", one.UseKey, newKey, 0},
		{"remove-key", one.RemoveKey, oldKey, 0}, {"remove-key again", one.RemoveKey, oldKey, 0},
	} {
		r.printKeyCommand(step.what, step.nodes, step.run, step.key)
		r.printKeys("list-keys behind "+step.what, other, false)
	}
}

// tryTokens connects to an agent that requires a token, with the right token, with another one and without one.
func (r *run) tryTokens() {
	k := r.agents[len(r.agents)-2]
	one, err := client.ClientFromConfig(&client.Config{Addr: k.rpcAddr(), AuthKey: "sesame", Timeout: limit})
	r.printFact("client with the token, error", err)
	_, err = one.Members()
	r.printFact("client with the token, members, error", err)
	one.Close()
	_, err = client.ClientFromConfig(&client.Config{Addr: k.rpcAddr(), AuthKey: "rice", Timeout: limit})
	r.printFact("client with another token, error", err)
	one, err = client.NewRPCClient(k.rpcAddr())
	r.printFact("client without a token, error", err)
	r.printFact("client without a token, event, error", one.UserEvent("x", nil, false))
	_, err = one.Members()
	r.printFact("client without a token, members, error", err)
	one.Close()
}
