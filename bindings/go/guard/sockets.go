package guard

import (
	"errors"
	"fmt"
	"net"
	"sync"
	"syscall"
	"time"

	"github.com/hashicorp/memberlist"
)

// sockets sends and receives packets over UDP and streams over TCP, on the same port.
type sockets struct {
	host      string
	tcp       *net.TCPListener
	udp       *net.UDPConn
	startOnce sync.Once
}

// maxReceiveBuffer is the size in bytes of the receive buffer that the guard requests for its socket. memberlist
// requests the same size. If the system refuses it, the guard tries half of it, and so on.
const maxReceiveBuffer = 2 << 20

// listen opens both sockets on the same port. If port is 0, it chooses a free one.
func (s *sockets) listen(port int) (err error) {
	ip := net.ParseIP(s.host)
	if s.tcp, err = net.ListenTCP("tcp", &net.TCPAddr{IP: ip, Port: port}); err != nil {
		return err
	}
	if s.udp, err = net.ListenUDP("udp", &net.UDPAddr{IP: ip, Port: s.port()}); err != nil {
		s.tcp.Close()
		return err
	}
	for size := maxReceiveBuffer; size > 0; size /= 2 {
		if err = s.udp.SetReadBuffer(size); err == nil {
			return nil
		}
	}
	s.close()
	return err
}

func (s *sockets) port() int { return s.tcp.Addr().(*net.TCPAddr).Port }

func (s *sockets) close() error {
	s.tcp.Close()
	s.udp.Close()
	return nil
}

// receive starts the goroutines that read both sockets. The other methods without a comment implement carrier too.
func (s *sockets) receive(t *Transport) {
	s.startOnce.Do(func() {
		t.startProving()
		t.running.Add(2)
		ins, buf := newInspector(t.core), make([]byte, t.bounds.PacketBytes+1)
		go t.repeatUntilClosed("reading a packet", func() error {
			n, from, err := s.udp.ReadFromUDP(buf)
			if err == nil {
				t.deliver(ins, buf[:n], from, time.Now())
			}
			return err
		})
		go t.repeatUntilClosed("accepting a stream", func() error {
			conn, err := s.tcp.AcceptTCP()
			if err == nil {
				t.deliverStream(conn)
			}
			return err
		})
	})
}

// After an error of a socket, for example because the process has no free file descriptor, repeatUntilClosed waits for minWait. After
// each further error it waits twice as long, up to maxWait.
const (
	minWait = 5 * time.Millisecond
	maxWait = time.Second
)

// repeatUntilClosed repeats step until the transport is shut down. action describes the step in the log.
func (t *Transport) repeatUntilClosed(action string, step func() error) {
	defer t.running.Done()
	for wait := minWait; ; {
		err := step()
		if err == nil {
			wait = minWait
			continue
		}
		select {
		case <-t.closed:
			return
		default:
		}
		t.log.Printf("[ERR] guard: %s: %v", action, err)
		select {
		case <-time.After(wait):
		case <-t.closed:
		}
		wait = min(2*wait, maxWait)
	}
}

func (s *sockets) send(b []byte, to memberlist.Address) (time.Time, error) {
	udp, err := net.ResolveUDPAddr("udp", to.Addr)
	if err != nil {
		return time.Time{}, err
	}
	_, err = s.udp.WriteTo(b, udp)
	return time.Now(), err
}

// dial opens a stream from the address on which the sockets listen. Packets are sent from this address too, and the
// other node recognizes this node by it. If that is impossible, the system selects an address.
func (s *sockets) dial(to memberlist.Address, timeout time.Duration) (net.Conn, error) {
	began, ip := time.Now(), s.tcp.Addr().(*net.TCPAddr).IP
	if ip.IsUnspecified() {
		return (&net.Dialer{Timeout: timeout}).Dial("tcp", to.Addr)
	}
	conn, err := (&net.Dialer{Timeout: timeout, LocalAddr: &net.TCPAddr{IP: ip}}).Dial("tcp", to.Addr)
	if err == nil || errors.Is(err, syscall.ECONNREFUSED) || time.Since(began) >= timeout {
		return conn, err
	}
	return (&net.Dialer{Timeout: timeout - time.Since(began)}).Dial("tcp", to.Addr)
}

func (s *sockets) finalAdvertiseAddr(given string, port int) (net.IP, int, error) {
	if given != "" {
		ip := net.ParseIP(given)
		if ip == nil {
			return nil, 0, fmt.Errorf("guard: %q is not an IP address", given)
		}
		if ipv4 := ip.To4(); ipv4 != nil {
			ip = ipv4
		}
		return ip, port, nil
	}
	if s.host != "0.0.0.0" {
		return s.tcp.Addr().(*net.TCPAddr).IP, s.port(), nil
	}
	ip, err := privateAddress()
	return ip, s.port(), err
}

// privateAddress returns the private address from which the host reaches others. If there is none, it returns the
// host's first private address.
func privateAddress() (net.IP, error) {
	// This sends nothing. The address is reserved for documentation.
	if conn, err := net.Dial("udp4", "192.0.2.1:9"); err == nil {
		ip := conn.LocalAddr().(*net.UDPAddr).IP
		conn.Close()
		if ip.IsPrivate() {
			return ip, nil
		}
	}
	addrs, err := net.InterfaceAddrs()
	if err != nil {
		return nil, err
	}
	for _, addr := range addrs {
		if ipNet, ok := addr.(*net.IPNet); ok && ipNet.IP.IsPrivate() && ipNet.IP.To4() != nil {
			return ipNet.IP.To4(), nil
		}
	}
	return nil, errors.New("guard: this host has no private IP address: set AdvertiseAddr")
}
