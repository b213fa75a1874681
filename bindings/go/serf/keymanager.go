package serf

import (
	"encoding/base64"
	"fmt"
)

// keyCommand is an operation on keys. Its value is the name of the query that requests the operation.
type keyCommand string

const (
	installKey keyCommand = "install-key"
	useKey     keyCommand = "use-key"
	removeKey  keyCommand = "remove-key"
	listKeys   keyCommand = "list-keys"
)

// KeyManager changes the keys of all nodes. Make one call at a time, since each change builds on the previous one.
type KeyManager struct{ serf *Serf }

// KeyManager returns the manager of the cluster's keys.
func (s *Serf) KeyManager() *KeyManager { return &KeyManager{s} }

// KeyRequestOptions are options for the query that changes or lists keys.
type KeyRequestOptions struct {
	// RelayFactor is the number of other nodes through which each response is also sent.
	RelayFactor uint8
}

// KeyResponse has the nodes' answers to a request about keys.
type KeyResponse struct {
	// Messages maps a node's name to the error or the note that the node sent.
	Messages map[string]string
	// NumNodes is the number of nodes. NumResp of them answered, and NumErr of those reported a failure.
	NumNodes int
	NumResp  int
	NumErr   int
	// Keys maps each key, in base64, to the number of nodes that have it. PrimaryKeys maps it to the number of nodes
	// that encrypt with it.
	Keys        map[string]int
	PrimaryKeys map[string]int
}

// InstallKey adds a key on all nodes, which can then decrypt with it. Here and below, the key is in base64. The error says how many nodes
// failed or did not answer; the response lists the message of each.
func (k *KeyManager) InstallKey(key string) (*KeyResponse, error) {
	return k.InstallKeyWithOptions(key, nil)
}

// InstallKeyWithOptions is InstallKey with options.
func (k *KeyManager) InstallKeyWithOptions(key string, opts *KeyRequestOptions) (*KeyResponse, error) {
	return k.request(installKey, key, opts)
}

// UseKey makes all nodes encrypt with a key that they have.
func (k *KeyManager) UseKey(key string) (*KeyResponse, error) { return k.UseKeyWithOptions(key, nil) }

// UseKeyWithOptions is UseKey with options.
func (k *KeyManager) UseKeyWithOptions(key string, opts *KeyRequestOptions) (*KeyResponse, error) {
	return k.request(useKey, key, opts)
}

// RemoveKey removes a key from all nodes. A node refuses to remove the key that it encrypts with.
func (k *KeyManager) RemoveKey(key string) (*KeyResponse, error) {
	return k.RemoveKeyWithOptions(key, nil)
}

// RemoveKeyWithOptions is RemoveKey with options.
func (k *KeyManager) RemoveKeyWithOptions(key string, opts *KeyRequestOptions) (*KeyResponse, error) {
	return k.request(removeKey, key, opts)
}

// ListKeys returns the keys of all nodes.
func (k *KeyManager) ListKeys() (*KeyResponse, error) { return k.ListKeysWithOptions(nil) }

// ListKeysWithOptions is ListKeys with options.
func (k *KeyManager) ListKeysWithOptions(opts *KeyRequestOptions) (*KeyResponse, error) {
	return k.request(listKeys, "", opts)
}

// request sends a command to all nodes and collects their answers.
func (k *KeyManager) request(command keyCommand, encodedKey string, opts *KeyRequestOptions) (*KeyResponse, error) {
	response := &KeyResponse{Messages: map[string]string{}}
	key, err := base64.StdEncoding.DecodeString(encodedKey)
	if err != nil {
		return response, err
	}
	params := *k.serf.DefaultQueryParams()
	if opts != nil {
		params.RelayFactor = opts.RelayFactor
	}
	k.serf.log.Printf("[INFO] serf: Initiating %s", command)
	query, err := k.serf.fireQuery(InternalQueryPrefix+string(command), encodeKeyRequest(key), params)
	if err != nil {
		return response, err
	}
	defer query.Close()
	if command == listKeys {
		response.Keys, response.PrimaryKeys = map[string]int{}, map[string]int{}
	}
	response.NumNodes = k.serf.memberlist().NumMembers()
	for answer := range query.responses {
		response.addAnswer(answer)
		if response.NumResp == response.NumNodes {
			// (all nodes have answered)
			break
		}
	}
	return response, response.failure()
}

// addAnswer adds one node's answer.
func (r *KeyResponse) addAnswer(answer NodeResponse) {
	r.NumResp++
	reply, err := decodeKeyResponse(answer.Payload)
	if err != nil {
		reply = nodeKeyResponse{Message: err.Error()}
	}
	if !reply.Result {
		r.NumErr++
	}
	if reply.Message != "" {
		r.Messages[answer.From] = reply.Message
	}
	if r.Keys == nil || !reply.Result {
		return
	}
	for _, key := range reply.Keys {
		r.Keys[key]++
	}
	if reply.PrimaryKey != "" {
		r.PrimaryKeys[reply.PrimaryKey]++
	}
}

// failure returns an error unless all nodes answered and none reported a failure.
func (r *KeyResponse) failure() error {
	switch {
	case r.NumErr > 0:
		return fmt.Errorf("%d/%d nodes reported failure", r.NumErr, r.NumNodes)
	case r.NumResp != r.NumNodes:
		return fmt.Errorf("%d/%d nodes reported success", r.NumResp, r.NumNodes)
	}
	return nil
}

// answerKeyQuery carries out a query about keys and returns the encoded response.
func (s *Serf) answerKeyQuery(command keyCommand, payload []byte) []byte {
	answer := nodeKeyResponse{}
	key, err := decodeKeyRequest(payload)
	switch {
	case command == listKeys:
		answer.Keys, err = s.keys.list()
		if err == nil {
			answer.PrimaryKey = answer.Keys[0]
		}
	case err != nil:
	case command == installKey:
		err = s.keys.install(key)
	case command == useKey:
		err = s.keys.use(key)
	case command == removeKey:
		err = s.keys.remove(key)
	}
	if answer.Result = err == nil; err != nil {
		s.log.Printf("[ERR] serf: %s failed: %v", command, err)
		answer.Message = err.Error()
	}
	return encodeFitting(s.config.QueryResponseSizeLimit, answer)
}

// encodeFitting encodes a response. It leaves out as many keys as necessary, so that the response's packet stays within
// the limit.
func encodeFitting(limit int, answer nodeKeyResponse) []byte {
	total := len(answer.Keys)
	if len(answer.Message) > 512 {
		answer.Message = answer.Message[:512]
	}
	for {
		encoded := encodeKeyResponse(answer)
		if len(encoded) <= limit-160-maxNameLength || len(answer.Keys) == 0 {
			return encoded
		}
		answer.Keys = answer.Keys[:len(answer.Keys)-1]
		answer.Message = fmt.Sprintf("truncated key list response, showing first %d of %d keys", len(answer.Keys), total)
	}
}
