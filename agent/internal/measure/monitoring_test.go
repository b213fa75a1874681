package measure

import (
	"encoding/json"
	"os/exec"
	"regexp"
	"strings"
	"testing"

	"kitchenrue.example/agent/internal/testkit"
)

// monitoring is the folder of the examples for Prometheus and Grafana.
const monitoring = "../../package/monitoring/"

// metricName matches a metric of the agent in an expression.
var metricName = regexp.MustCompile(`\b(?:agent|serf|memberlist|process|go|kitchenrue_agent)_[a-z0-9_]+`)

// monitoringExpressions returns the alerts' and the dashboard's expressions.
func monitoringExpressions(t *testing.T) []string {
	t.Helper()
	var found []string
	for _, line := range strings.Split(testkit.Read(t, monitoring+"alerts.yml"), "\n") {
		if _, expression, ok := strings.Cut(line, " expr: "); ok {
			found = append(found, expression)
		}
	}
	var dashboard struct {
		Panels []struct {
			Title   string
			Targets []struct{ Expr string }
		}
		Templating struct {
			List []struct{ Definition string }
		}
	}
	testkit.Must(t, json.Unmarshal([]byte(testkit.Read(t, monitoring+"dashboard.json")), &dashboard))
	for _, panel := range dashboard.Panels {
		for _, target := range panel.Targets {
			found = append(found, target.Expr)
		}
	}
	for _, variable := range dashboard.Templating.List {
		found = append(found, variable.Definition)
	}
	return found
}

// The page has each metric that the alerts and the dashboard use, and promtool accepts the files.
func TestMonitoring(t *testing.T) {
	pageNames := map[string]bool{}
	for _, families := range []map[string]family{metricFamilies, figureFamilies} {
		for _, family := range families {
			pageNames[family.name] = true
			if family.kind == "summary" {
				pageNames[family.name+"_sum"], pageNames[family.name+"_count"] = true, true
			}
		}
	}
	for _, total := range processTotals() {
		pageNames[total.family.name] = true
	}
	found := monitoringExpressions(t)
	if len(found) < 30 {
		t.Error("only", len(found), "expressions were found")
	}
	for _, expression := range found {
		for _, name := range metricName.FindAllString(expression, -1) {
			if !pageNames[name] {
				t.Errorf("the page has no %s: %s", name, expression)
			}
		}
	}
	promtool, err := exec.LookPath("promtool")
	if err != nil {
		t.Skip("promtool isn't installed")
	}
	for _, words := range []string{
		"check config prometheus.yml", "check rules --lint=all --lint-fatal alerts.yml", "test rules alerts.test.yml",
	} {
		check := exec.Command(promtool, strings.Fields(words)...)
		check.Dir = monitoring
		if said, err := check.CombinedOutput(); err != nil {
			t.Errorf("promtool %s: %v: %s", words, err, said)
		}
	}
}
