package serf

import "fmt"

// maxTagsLength is the maximum number of bytes of a node's encoded tags.
const maxTagsLength = 512

// errTagsTooLong is returned for tags that are too long for memberlist, which would panic if it had to send them.
//
//lint:ignore ST1005 Serf's own message
var errTagsTooLong = fmt.Errorf("Encoded length of tags exceeds limit of %d bytes", maxTagsLength)

// tagsMagic is the first byte of encoded tags. Old nodes send only their role, without this byte.
const tagsMagic = 0xff

// encodeTags encodes a node's tags.
func encodeTags(tags map[string]string) ([]byte, error) {
	if tags == nil {
		tags = map[string]string{}
	}
	data := encode(tags, tagsMagic)
	if len(data) > maxTagsLength {
		return nil, errTagsTooLong
	}
	return data, nil
}

// ValidateTags returns an error if tags are too long for SetTags. Serf has no such function.
func ValidateTags(tags map[string]string) error {
	_, err := encodeTags(tags)
	return err
}

// decodeTags decodes a node's tags.
func decodeTags(data []byte) (map[string]string, error) {
	if len(data) == 0 || data[0] != tagsMagic {
		return map[string]string{"role": string(data)}, nil
	}
	tags := map[string]string{}
	if err := decodeWhole(data, tagsMagic, &tags); err != nil {
		return map[string]string{}, fmt.Errorf("tags: %w", err)
	}
	return tags, nil
}
