package serf

import (
	"fmt"
	"regexp"
	"regexp/syntax"

	"kitchenrue.example/serfagent"
)

// maxFilters is the maximum number of filters of a query. A query with more of them is not handed out here.
const maxFilters = 128

// maxExpressionSize is the maximum total size of the regular expressions of a query's filters. The size of an
// expression is the number of its parts, and a repeated part counts as often as it may be repeated. Without a limit, a
// packet of a few kilobytes could have millions of parts, and compiling it would take seconds and hundreds of
// megabytes.
const maxExpressionSize = 2000

// ownTagsPass reports whether a packet is a query and this node's tags pass all of its tag filters.
func (s *Serf) ownTagsPass(packet []byte) bool {
	if packet[0] != queryType {
		return false
	}
	filters, err := serfagent.FiltersOf(packet)
	return err == nil && len(filters) <= maxFilters && tagFiltersPass(filters, s.ownTags())
}

// tagFiltersPass reports whether tags pass all tag filters among these filters. A filter that can't be read, or whose expression is too
// large, lets no node pass.
func tagFiltersPass(filters [][]byte, tags map[string]string) bool {
	budget := maxExpressionSize
	for _, filter := range filters {
		if !IsTagFilter(filter) {
			continue
		}
		tag, expression, err := decodeTagFilter(filter)
		if err != nil {
			return false
		}
		compiled, err := compileExpression(expression, &budget)
		if err != nil || !compiled.MatchString(tags[tag]) {
			return false
		}
	}
	return true
}

// IsTagFilter reports whether a query's filter is a tag filter. Serf has no such function.
func IsTagFilter(filter []byte) bool { return len(filter) > 0 && filter[0] == serfagent.TagFilter }

// expressionSize returns the size of an expression, as maxExpressionSize counts it.
func expressionSize(expression *syntax.Regexp) int {
	size := 1 + len(expression.Rune)
	for _, part := range expression.Sub {
		size += expressionSize(part)
	}
	if expression.Op == syntax.OpRepeat && expression.Max > 1 {
		size *= expression.Max
	} else if expression.Op == syntax.OpRepeat && expression.Min > 1 {
		size *= expression.Min
	}
	return size
}

// compileExpression compiles an expression and takes its size from the budget. It returns an error if the budget is exceeded.
func compileExpression(expression string, budget *int) (*regexp.Regexp, error) {
	parsed, err := syntax.Parse(expression, syntax.Perl)
	if err != nil {
		return nil, err
	}
	if *budget -= expressionSize(parsed); *budget < 0 {
		return nil, fmt.Errorf("the expressions of the query's tag filters have more than %d parts", maxExpressionSize)
	}
	return regexp.Compile(expression)
}

// decodeTagFilter decodes a tag filter: a tag and an expression that has to match somewhere in the tag's value.
func decodeTagFilter(filter []byte) (tag, expression string, err error) {
	var found struct{ Tag, Expr string }
	err = decodeWhole(filter, serfagent.TagFilter, &found)
	return found.Tag, found.Expr, err
}
