package config

import (
	"context"
	"fmt"
	"net"
	"strconv"
	"strings"
	"time"
)

// Address is a host, which may be empty, and a port.
type Address struct {
	Host string
	Port int
}

func (a Address) String() string { return net.JoinHostPort(a.Host, strconv.Itoa(a.Port)) }

// ParseAddress parses HOST, HOST:PORT, [IPV6] or [IPV6]:PORT. If the text has no port, the result has the given one.
// ParseAddress doesn't resolve names.
func ParseAddress(text string, port int) (Address, error) {
	host := text
	if strings.HasPrefix(text, "[") && strings.HasSuffix(text, "]") {
		return Address{text[1 : len(text)-1], port}, nil
	}
	if strings.Contains(text, ":") && net.ParseIP(text) == nil {
		var digits string
		var err error
		if host, digits, err = net.SplitHostPort(text); err != nil {
			return Address{}, fmt.Errorf("%q is not an address: %w", text, err)
		}
		if port, err = strconv.Atoi(digits); err != nil || port < 0 || port > 65535 {
			return Address{}, fmt.Errorf("%q is not an address: %q is not a port", text, digits)
		}
	}
	return Address{host, port}, nil
}

// ParseIP is ParseAddress for an address that Resolve has resolved. A host that is not an IP address is an error,
// because memberlist would treat it as all addresses of the machine.
func ParseIP(text string) (Address, error) {
	address, err := ParseAddress(text, BindPort)
	if err == nil && net.ParseIP(address.Host) == nil {
		return Address{}, fmt.Errorf("%q is not an IP address", text)
	}
	return address, err
}

// parseWithHost is ParseAddress for an address that must name its host. Without a host the agent would listen on every
// network.
func parseWithHost(text string, port int) (Address, error) {
	address, err := ParseAddress(text, port)
	if err == nil && address.Host == "" {
		anyHost := Address{net.IPv4zero.String(), address.Port}
		return Address{}, fmt.Errorf("%q names no host; %s would be all of this machine's addresses", text, anyHost)
	}
	return address, err
}

// lookupTimeout is the maximum time for resolving a name.
const lookupTimeout = 10 * time.Second

// lookupIP resolves names. Tests replace it.
var lookupIP = net.DefaultResolver.LookupIPAddr

// Resolved returns the address with an IP address as its host. A name is resolved to its first IPv4 address, or, if it
// has none, to its first address, as Go's net.Dial does. A name that resolves to all addresses of the machine is an
// error. The operator can write 0.0.0.0 for that.
func (a Address) Resolved() (Address, error) {
	if ip := net.ParseIP(a.Host); ip != nil {
		return Address{ip.String(), a.Port}, nil
	}
	ctx, cancel := context.WithTimeout(context.Background(), lookupTimeout)
	defer cancel()
	addrs, err := lookupIP(ctx, a.Host)
	if err != nil {
		return Address{}, err
	}
	if len(addrs) == 0 {
		return Address{}, fmt.Errorf("%q has no address", a.Host)
	}
	first := addrs[0]
	for _, addr := range addrs {
		if addr.IP.To4() != nil {
			first = addr
			break
		}
	}
	switch {
	case first.IP.IsUnspecified():
		return Address{}, fmt.Errorf("%q resolves to all of this machine's addresses; write %s if that is what you want", a.Host, first.IP)
	case first.Zone != "":
		return Address{}, fmt.Errorf("%q resolves to the link-local address %s, whose zone gossip can't send", a.Host, first.String())
	}
	return Address{first.IP.String(), a.Port}, nil
}

// onInterface checks that the host is an address of an interface of this machine. If the host is 0.0.0.0 or ::, it is
// replaced by the interface's first IPv4 address, or, if it has none, by its first address that is not link-local.
func (a Address) onInterface(name string) (Address, error) {
	device, err := net.InterfaceByName(name)
	if err != nil {
		return Address{}, fmt.Errorf("%q is not an interface of this machine", name)
	}
	addrs, err := device.Addrs()
	if err != nil {
		return Address{}, fmt.Errorf("%s: %w", name, err)
	}
	host := net.ParseIP(a.Host)
	var first net.IP
	for _, addr := range addrs {
		network, ok := addr.(*net.IPNet)
		switch {
		case !ok:
		case network.IP.Equal(host):
			return a, nil
		case network.IP.To4() != nil && (first == nil || first.To4() == nil), first == nil && !network.IP.IsLinkLocalUnicast():
			first = network.IP
		}
	}
	switch {
	case !host.IsUnspecified():
		return Address{}, fmt.Errorf("the interface %s doesn't have the address %s", name, a.Host)
	case first == nil:
		return Address{}, fmt.Errorf("the interface %s has no address", name)
	}
	return Address{first.String(), a.Port}, nil
}

// Resolve resolves the names in the addresses once, when the agent starts. After that each address is an IP address and
// a port.
func (c *Config) Resolve() error {
	for _, address := range []struct {
		flag string
		text *string
		port int
	}{
		{"-bind", &c.Bind, BindPort}, {"-advertise", &c.Advertise, BindPort}, {"-rpc-addr", &c.RPCAddr, RPCPort},
		{"-prometheus-addr", &c.PrometheusAddr, PrometheusPort},
	} {
		if *address.text == "" && (address.text == &c.Advertise || address.text == &c.PrometheusAddr) {
			continue
		}
		resolved, err := resolveText(*address.text, address.port)
		if err == nil && address.text == &c.Advertise && net.ParseIP(resolved.Host).IsUnspecified() {
			err = fmt.Errorf("%s is not an address at which other nodes reach this one", resolved.Host)
		}
		if err != nil {
			return fmt.Errorf("%s: %w", address.flag, err)
		}
		if address.text == &c.Bind && c.Interface != "" {
			if resolved, err = resolved.onInterface(c.Interface); err != nil {
				return fmt.Errorf("-iface: %w", err)
			}
		}
		*address.text = resolved.String()
	}
	return nil
}

// resolveText parses an address that must name its host, and resolves the host.
func resolveText(text string, port int) (Address, error) {
	address, err := parseWithHost(text, port)
	if err != nil {
		return Address{}, err
	}
	return address.Resolved()
}
