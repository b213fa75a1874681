package rpc

import "kitchenrue.example/guard/msgpack"

// plainDecoder is a message that can decode itself if it has the form that Serf's own clients write: a map of its
// fields. decodePlain reports whether the value has this form. If it doesn't, the message is unchanged, and go-msgpack
// decodes the value, which takes several times as long.
type plainDecoder interface {
	decodePlain(in *msgpack.Reader) bool
}

// readFields reads a map. For each name it calls field, which reads the field's value and reports whether it succeeded.
func readFields(in *msgpack.Reader, field func(name []byte) bool) bool {
	kind, count := in.Next()
	if kind != msgpack.Map {
		return false
	}
	for ; count > 0; count-- {
		if name, ok := readText(in); !ok || !field(name) {
			return false
		}
	}
	return in.Err == nil
}

// readText reads a text. The bytes still belong to the reader.
func readText(in *msgpack.Reader) ([]byte, bool) {
	kind, length := in.Next()
	if kind != msgpack.Text {
		return nil, false
	}
	text := in.Take(int(length))
	return text, in.Err == nil
}

func (h *requestHeader) decodePlain(in *msgpack.Reader) bool {
	var plain requestHeader
	isPlain := readFields(in, func(name []byte) (ok bool) {
		switch string(name) {
		case "Command":
			var text []byte
			text, ok = readText(in)
			plain.Command = string(text)
		case "Seq":
			var kind msgpack.Kind
			kind, plain.Seq = in.Next()
			ok = kind == msgpack.Number
		}
		return ok
	})
	if isPlain {
		*h = plain
	}
	return isPlain
}

func (b *eventBody) decodePlain(in *msgpack.Reader) bool {
	var plain eventBody
	isPlain := readFields(in, func(name []byte) (ok bool) {
		switch string(name) {
		case "Name":
			var text []byte
			text, ok = readText(in)
			plain.Name = string(text)
		case "Payload":
			// (Serf's client writes a text or nil, and other clients write bytes. go-msgpack decodes a request that has
			// a second payload)
			switch kind, length := in.Next(); {
			case plain.Payload != nil:
			case kind == msgpack.Nil:
				ok = true
			case kind == msgpack.Text || kind == msgpack.Bytes:
				plain.Payload, ok = append([]byte(nil), in.Take(int(length))...), true
			}
		case "Coalesce":
			kind, flag := in.Next()
			plain.Coalesce, ok = flag == 1, kind == msgpack.Flag
		}
		return ok
	})
	if isPlain {
		*b = plain
	}
	return isPlain
}
