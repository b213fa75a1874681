package config

import (
	"context"
	"errors"
	"net"
	"strings"
	"testing"
)

// withNames resolves names from a table during a test.
func withNames(t *testing.T, names map[string][]string) {
	t.Helper()
	original := lookupIP
	t.Cleanup(func() { lookupIP = original })
	lookupIP = func(_ context.Context, name string) ([]net.IPAddr, error) {
		addrs, ok := names[name]
		if !ok {
			return nil, errors.New("lookup " + name + ": no such host")
		}
		var found []net.IPAddr
		for _, text := range addrs {
			ip, zone, _ := strings.Cut(text, "%")
			found = append(found, net.IPAddr{IP: net.ParseIP(ip), Zone: zone})
		}
		return found, nil
	}
}

func TestNamesAreLookedUp(t *testing.T) {
	withNames(t, map[string][]string{
		"web1": {"192.0.2.7"}, "both": {"2001:db8::1", "192.0.2.8", "192.0.2.9"}, "six": {"2001:db8::1", "2001:db8::2"}, "none": nil,
		"every": {"0.0.0.0"}, "everysix": {"::"}, "link": {"fe80::1%eth0"},
	})
	for _, test := range []struct{ bind, advertise, rpc, want, says string }{
		{"192.0.2.7", "", "127.0.0.1:7373", "192.0.2.7:7946  127.0.0.1:7373", ""},
		{"0.0.0.0", "", "0.0.0.0", "0.0.0.0:7946  0.0.0.0:7373", ""},
		{"::", "", "[::1]:1", "[::]:7946  [::1]:1", ""},
		{"web1:1", "both", "web1", "192.0.2.7:1 192.0.2.8:7946 192.0.2.7:7373", ""},
		{"six:2", "six:3", "six:4", "[2001:db8::1]:2 [2001:db8::1]:3 [2001:db8::1]:4", ""},
		{"lo", "", "web1", "", "-bind: lookup lo: no such host"},
		{"web1", "nobody:1", "web1", "", "-advertise: lookup nobody: no such host"},
		{"web1", "", "nobody", "", "-rpc-addr: lookup nobody: no such host"},
		{"none", "", "web1", "", `-bind: "none" has no address`},
		{"every:7946", "", "web1", "", `-bind: "every" resolves to all`},
		{"web1", "", "everysix", "", `-rpc-addr: "everysix" resolves to all`},
		{"web1", "0.0.0.0", "web1", "", "-advertise: 0.0.0.0 is not an address at which other nodes"},
		{"link", "", "web1", "", `-bind: "link" resolves to the link-local address fe80::1%eth0`},
		{"", "", "web1", "", "names no host"},
	} {
		config := Default()
		config.Bind, config.Advertise, config.RPCAddr = test.bind, test.advertise, test.rpc
		err := config.Resolve()
		switch got := strings.Join([]string{config.Bind, config.Advertise, config.RPCAddr}, " "); {
		case err == nil && got != test.want:
			t.Errorf("%+v: %s", test, got)
		case (err == nil) != (test.says == "") ||
			err != nil && !strings.HasPrefix(err.Error(), test.says) && !strings.Contains(err.Error(), test.says):
			t.Errorf("%+v: %v", test, err)
		}
	}
}

// The machine's resolver returns an address of the machine for localhost.
func TestLocalhost(t *testing.T) {
	config := Default()
	config.Bind = "localhost:7952"
	if err := config.Resolve(); err != nil || config.Bind != "127.0.0.1:7952" && config.Bind != "[::1]:7952" {
		t.Error(config.Bind, err)
	}
}

func TestInterfaces(t *testing.T) {
	for _, test := range []struct{ name, bind, want, says string }{
		{"lo", "0.0.0.0:7956", "127.0.0.1:7956", ""},
		{"lo", "0.0.0.0", "127.0.0.1:7946", ""},
		{"lo", "127.0.0.1:1", "127.0.0.1:1", ""},
		{"lo", "localhost:1", "127.0.0.1:1", ""},
		{"lo", "192.0.2.7", "", "-iface: the interface lo doesn't have the address 192.0.2.7"},
		{"nope0", "0.0.0.0", "", `-iface: "nope0" is not an interface`},
	} {
		withNames(t, map[string][]string{"localhost": {"127.0.0.1"}})
		config := Default()
		config.Interface, config.Bind = test.name, test.bind
		if err := config.Resolve(); (err == nil) != (test.says == "") || err == nil && config.Bind != test.want ||
			err != nil && !strings.Contains(err.Error(), test.says) {
			t.Errorf("%+v: %s %v", test, config.Bind, err)
		}
	}
}
