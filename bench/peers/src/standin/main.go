// standin: A STAND-IN FOR TESTING THE LOAD GENERATOR ONLY. It speaks what docs/PROTOCOL.md
// tells, well enough for loadgen's scenarios, takes the words of
// `cf_server serve`, and can be told to misbehave (-fault), so that it can be seen
// that loadgen notices. It is no reference for the protocol. Its figures stand for
// "a simple hand-written Go server on gorilla/websocket". With -direct a publish
// writes each subscriber's frame with one write(2) from the publisher's goroutine,
// without queues, goroutine changes or flow control (a full socket loses its
// client): no server at all, but close to what the kernel alone costs. With -batch
// a connection's writer puts all frames that wait for it into one write.
package main

import (
	"bytes"
	"encoding/json"
	"flag"
	"fmt"
	"io"
	"net"
	"net/http"
	"os"
	"strconv"
	"strings"
	"sync"
	"sync/atomic"
	"syscall"
	"time"

	"github.com/gorilla/websocket"
)

const (
	historySize = 100
	historyTime = 300 * time.Second
	queueLimit  = 1 << 20
	pingEvery   = 25 * time.Second
	pongWithin  = 8 * time.Second
)

// Faults, each at every K-th chance.
var fault struct {
	drop, dup, swap, badRecover, shortRecover, stall, offset int64
}
var chances int64

func hit(k int64) bool { return k > 0 && atomic.AddInt64(&chances, 1)%k == 0 }

type pub struct {
	offset uint64
	text   []byte // {"data":..,"info":..,"offset":N}
	at     time.Time
}

type channel struct {
	mu    sync.Mutex
	name  string
	epoch string
	top   uint64
	last  time.Time
	ring  []pub
	subs  map[*conn]struct{}
}

type hub struct {
	mu    sync.RWMutex
	chans map[string]*channel
	boot  string
	next  uint64
	conns uint64
}

func (h *hub) get(name string) *channel {
	h.mu.RLock()
	c := h.chans[name]
	h.mu.RUnlock()
	if c != nil {
		return c
	}
	h.mu.Lock()
	defer h.mu.Unlock()
	if c = h.chans[name]; c == nil {
		h.next++
		c = &channel{name: name, epoch: h.boot + "x" + strconv.FormatUint(h.next, 10), subs: map[*conn]struct{}{}}
		h.chans[name] = c
	}
	return c
}

// conn is one session: a reading and a writing goroutine.
type conn struct {
	h       *hub
	ws      *websocket.Conn
	id      string
	mu      sync.Mutex
	cond    *sync.Cond
	queue   []out
	bytes   int
	code    int
	reason  string
	closing bool
	chans   map[string]*channel
	ready   bool
	pinged  int64
	fd      int // -direct: the bare socket
	timer   *time.Timer
	over    bool
}

var direct, batch bool

// out is one message: gorilla's prepared form, or (-direct) the bare frame.
type out struct {
	m *websocket.PreparedMessage
	f []byte
	n int
}

func frameOf(op byte, text []byte) []byte {
	f := []byte{128 | op}
	switch {
	case len(text) < 126:
		f = append(f, byte(len(text)))
	case len(text) < 1<<16:
		f = append(f, 126, byte(len(text)>>8), byte(len(text)))
	default:
		f = append(f, 127, 0, 0, 0, 0, byte(len(text)>>24), byte(len(text)>>16), byte(len(text)>>8), byte(len(text)))
	}
	return append(f, text...)
}

func prepared(text []byte) out {
	if direct || batch {
		return out{f: frameOf(1, text), n: len(text)}
	}
	m, err := websocket.NewPreparedMessage(websocket.TextMessage, text)
	if err != nil {
		panic(err)
	}
	return out{m: m, n: len(text)}
}

func (c *conn) push(o out) {
	c.mu.Lock()
	if direct {
		if !c.over {
			if k, err := syscall.Write(c.fd, o.f); err != nil || k < len(o.f) {
				c.over = true
				syscall.Shutdown(c.fd, syscall.SHUT_RDWR)
			}
		}
		c.mu.Unlock()
		return
	}
	if !c.closing {
		if c.bytes+o.n > queueLimit {
			c.closing, c.code, c.reason = true, 3008, "slow"
		} else {
			c.queue = append(c.queue, o)
			c.bytes += o.n
		}
		c.cond.Signal()
	}
	c.mu.Unlock()
}

func (c *conn) say(text []byte) { c.push(prepared(text)) }

func (c *conn) close(code int, reason string) {
	c.mu.Lock()
	if direct {
		if !c.over {
			c.over = true
			if code > 0 {
				syscall.Write(c.fd, frameOf(8, append([]byte{byte(code >> 8), byte(code)}, reason...)))
			}
			syscall.Shutdown(c.fd, syscall.SHUT_RDWR)
		}
		c.mu.Unlock()
		return
	}
	if !c.closing {
		c.closing, c.code, c.reason = true, code, reason
		c.cond.Signal()
	}
	c.mu.Unlock()
}

func (c *conn) writer() {
	defer c.ws.Close()
	for {
		c.mu.Lock()
		for len(c.queue) == 0 && !c.closing {
			c.cond.Wait()
		}
		q := c.queue
		c.queue, c.bytes = nil, 0
		closing, code, reason := c.closing, c.code, c.reason
		c.mu.Unlock()
		if batch && len(q) > 0 {
			all := q[0].f
			if len(q) > 1 {
				all = make([]byte, 0, len(q)*(len(q[0].f)+64))
				for _, o := range q {
					all = append(all, o.f...)
				}
			}
			c.ws.SetWriteDeadline(time.Now().Add(5 * time.Second))
			nc := c.ws.UnderlyingConn()
			nc.SetWriteDeadline(time.Now().Add(5 * time.Second))
			if _, err := nc.Write(all); err != nil {
				return
			}
			q = nil
		}
		for _, o := range q {
			c.ws.SetWriteDeadline(time.Now().Add(5 * time.Second))
			if c.ws.WritePreparedMessage(o.m) != nil {
				return
			}
		}
		if closing {
			if code > 0 {
				c.ws.WriteControl(websocket.CloseMessage, websocket.FormatCloseMessage(code, reason), time.Now().Add(time.Second))
			}
			return
		}
	}
}

// ping and its check run on one timer of the connection.
func (c *conn) ping() {
	atomic.StoreInt64(&c.pinged, 1)
	c.say([]byte("{}"))
	c.arm(pongWithin, c.check)
}

func (c *conn) check() {
	if atomic.LoadInt64(&c.pinged) == 1 {
		c.close(3012, "no pong")
		return
	}
	c.arm(pingEvery-pongWithin, c.ping)
}

func (c *conn) arm(d time.Duration, f func()) {
	c.mu.Lock()
	if !c.closing && !c.over {
		c.timer = time.AfterFunc(d, f)
	}
	c.mu.Unlock()
}

type command struct {
	ID      uint32 `json:"id"`
	Connect *struct {
		Token string `json:"token"`
	} `json:"connect"`
	Subscribe *struct {
		Channel string `json:"channel"`
		Recover bool   `json:"recover"`
		Epoch   string `json:"epoch"`
		Offset  uint64 `json:"offset"`
	} `json:"subscribe"`
	Unsubscribe *struct {
		Channel string `json:"channel"`
	} `json:"unsubscribe"`
	Publish *struct {
		Channel string          `json:"channel"`
		Data    json.RawMessage `json:"data"`
	} `json:"publish"`
	Presence *struct {
		Channel string `json:"channel"`
	} `json:"presence"`
	PresenceStats *struct {
		Channel string `json:"channel"`
	} `json:"presence_stats"`
	Ping *struct{} `json:"ping"`
	Send *struct{} `json:"send"`
}

func (c *conn) reader() {
	c.ws.SetReadLimit(65536)
	for {
		typ, b, err := c.ws.ReadMessage()
		if err != nil {
			c.close(0, "")
			return
		}
		if typ != websocket.TextMessage {
			c.close(3501, "bad request")
			return
		}
		if bytes.Equal(b, []byte("{}")) {
			atomic.StoreInt64(&c.pinged, 0)
			continue
		}
		d := json.NewDecoder(bytes.NewReader(b))
		for {
			var m command
			if err := d.Decode(&m); err == io.EOF {
				break
			} else if err != nil {
				c.close(3501, "bad request")
				return
			}
			if !c.command(&m) {
				c.close(3501, "bad request")
				return
			}
		}
	}
}

func (c *conn) refuse(id uint32, code int, text string) {
	c.say([]byte(fmt.Sprintf(`{"error":{"code":%d,"message":%q},"id":%d}`, code, text, id)))
}

func (c *conn) command(m *command) bool {
	if m.Connect != nil {
		if c.ready {
			return false
		}
		c.ready = true
		c.say([]byte(fmt.Sprintf(`{"connect":{"client":%q,"ping":25,"pong":true,"version":"1.0.0"},"id":%d}`, c.id, m.ID)))
		return true
	}
	if !c.ready {
		return false
	}
	switch {
	case m.Subscribe != nil:
		name := m.Subscribe.Channel
		if name == "" || len(name) > 255 {
			c.refuse(m.ID, 107, "bad request")
			return true
		}
		if c.chans[name] != nil {
			c.refuse(m.ID, 105, "already subscribed")
			return true
		}
		if len(c.chans) >= 128 {
			c.refuse(m.ID, 106, "limit exceeded")
			return true
		}
		ch := c.h.get(name)
		c.chans[name] = ch
		ch.subscribe(c, m.ID, m.Subscribe.Recover, m.Subscribe.Epoch, m.Subscribe.Offset)
	case m.Unsubscribe != nil:
		if ch := c.chans[m.Unsubscribe.Channel]; ch != nil {
			ch.mu.Lock()
			delete(ch.subs, c)
			ch.mu.Unlock()
			delete(c.chans, m.Unsubscribe.Channel)
		}
		c.say([]byte(fmt.Sprintf(`{"id":%d,"unsubscribe":{}}`, m.ID)))
	case m.Publish != nil:
		if m.Publish.Channel == "" || len(m.Publish.Data) == 0 {
			c.refuse(m.ID, 107, "bad request")
			return true
		}
		c.h.get(m.Publish.Channel).publish(c, m.Publish.Data)
		c.say([]byte(fmt.Sprintf(`{"id":%d,"publish":{}}`, m.ID)))
	case m.Presence != nil:
		ch := c.h.get(m.Presence.Channel)
		var b bytes.Buffer
		ch.mu.Lock()
		for s := range ch.subs {
			if b.Len() > 0 {
				b.WriteByte(',')
			}
			fmt.Fprintf(&b, `%q:{"client":%q}`, s.id, s.id)
		}
		ch.mu.Unlock()
		c.say([]byte(fmt.Sprintf(`{"id":%d,"presence":{"presence":{%s}}}`, m.ID, b.String())))
	case m.PresenceStats != nil:
		ch := c.h.get(m.PresenceStats.Channel)
		ch.mu.Lock()
		n := len(ch.subs)
		ch.mu.Unlock()
		c.say([]byte(fmt.Sprintf(`{"id":%d,"presence_stats":{"num_clients":%d,"num_users":%d}}`, m.ID, n, minInt(n, 1))))
	case m.Ping != nil:
		c.say([]byte(fmt.Sprintf(`{"id":%d,"ping":{}}`, m.ID)))
	case m.Send != nil:
	default:
		if m.ID == 0 {
			return false
		}
		c.refuse(m.ID, 108, "not available")
	}
	return true
}

func minInt(a, b int) int {
	if a < b {
		return a
	}
	return b
}

func (ch *channel) held(now time.Time) []pub {
	if now.Sub(ch.last) >= historyTime {
		ch.ring = nil
	}
	return ch.ring
}

func (ch *channel) subscribe(c *conn, id uint32, recover bool, epoch string, offset uint64) {
	ch.mu.Lock()
	defer ch.mu.Unlock()
	var b bytes.Buffer
	fmt.Fprintf(&b, `{"id":%d,"subscribe":{"epoch":%q`, id, ch.epoch)
	if ch.top > 0 {
		fmt.Fprintf(&b, `,"offset":%d`, ch.top)
	}
	b.WriteString(`,"positioned":true`)
	recovered := false
	if recover {
		held := ch.held(time.Now())
		recovered = epoch == ch.epoch && offset <= ch.top && ch.top-offset <= uint64(len(held))
		if recovered && ch.top > offset {
			run := held[uint64(len(held))-(ch.top-offset):]
			if hit(fault.shortRecover) {
				run = run[1:]
			}
			b.WriteString(`,"publications":[`)
			for i, p := range run {
				if i > 0 {
					b.WriteByte(',')
				}
				b.Write(p.text)
			}
			b.WriteByte(']')
		}
		if recovered && hit(fault.badRecover) {
			recovered = false
		}
	}
	b.WriteString(`,"recoverable":true`)
	if recovered {
		b.WriteString(`,"recovered":true`)
	}
	if recover {
		b.WriteString(`,"was_recovering":true`)
	}
	b.WriteString(`}}`)
	ch.subs[c] = struct{}{}
	c.say(b.Bytes())
}

func (ch *channel) publish(c *conn, data json.RawMessage) {
	var d bytes.Buffer
	if json.Compact(&d, data) != nil {
		return
	}
	ch.mu.Lock()
	defer ch.mu.Unlock()
	now := time.Now()
	ch.held(now)
	ch.top++
	ch.last = now
	off := ch.top
	if hit(fault.offset) {
		off += 7
	}
	text := []byte(fmt.Sprintf(`{"data":%s,"info":{"client":%q},"offset":%d}`, d.Bytes(), c.id, off))
	if len(ch.ring) >= historySize {
		copy(ch.ring, ch.ring[1:])
		ch.ring = ch.ring[:historySize-1]
	}
	ch.ring = append(ch.ring, pub{offset: ch.top, text: text, at: now})
	frame := []byte(fmt.Sprintf(`{"push":{"channel":%q,"pub":%s}}`, ch.name, text))
	m := prepared(frame)
	for s := range ch.subs {
		if fault.drop > 0 && hit(fault.drop) {
			continue
		}
		s.push(m)
		if fault.dup > 0 && hit(fault.dup) {
			s.push(m)
		}
	}
	if fault.stall > 0 && int64(ch.top) >= fault.stall {
		time.Sleep(time.Hour)
	}
}

func main() {
	args := os.Args[1:]
	if len(args) > 0 && args[0] == "serve" {
		args = args[1:]
	}
	f := flag.NewFlagSet("standin", flag.ExitOnError)
	boot := f.String("boot", "1", "boot number")
	nodes := f.Int("nodes", 1, "nodes")
	port := f.Int("port", 0, "first port")
	f.String("ns", "", "taken and passed over")
	faults := f.String("fault", "", "e.g. drop=1000,dup=1000,badrecover=50,shortrecover=50,stall=100,offset=500")
	f.BoolVar(&batch, "batch", false, "all frames that wait for a connection in one write")
	f.BoolVar(&direct, "direct", false, "one write(2) per delivery, nothing else")
	f.Parse(args)
	for _, s := range strings.Split(*faults, ",") {
		if s == "" {
			continue
		}
		kv := strings.SplitN(s, "=", 2)
		n := int64(1)
		if len(kv) == 2 {
			n, _ = strconv.ParseInt(kv[1], 10, 64)
		}
		switch kv[0] {
		case "drop":
			fault.drop = n
		case "dup":
			fault.dup = n
		case "badrecover":
			fault.badRecover = n
		case "shortrecover":
			fault.shortRecover = n
		case "stall":
			fault.stall = n
		case "offset":
			fault.offset = n
		default:
			fmt.Fprintln(os.Stderr, "unknown fault", kv[0])
			os.Exit(2)
		}
	}
	h := &hub{chans: map[string]*channel{}, boot: *boot}
	up := websocket.Upgrader{CheckOrigin: func(*http.Request) bool { return true }}
	for i := 0; i < *nodes; i++ {
		p := 0
		if *port > 0 {
			p = *port + i
		}
		l, err := net.Listen("tcp4", fmt.Sprintf("127.0.0.1:%d", p))
		if err != nil {
			fmt.Fprintln(os.Stderr, err)
			os.Exit(4)
		}
		node := i
		mux := http.HandlerFunc(func(w http.ResponseWriter, r *http.Request) {
			ws, err := up.Upgrade(w, r, nil)
			if err != nil {
				return
			}
			n := atomic.AddUint64(&h.conns, 1)
			c := &conn{h: h, ws: ws, id: fmt.Sprintf("%d-%s-%d", node, h.boot, n), chans: map[string]*channel{}}
			c.cond = sync.NewCond(&c.mu)
			if direct {
				rc, err := ws.UnderlyingConn().(*net.TCPConn).SyscallConn()
				if err != nil || rc.Control(func(fd uintptr) { c.fd = int(fd) }) != nil || err != nil {
					ws.Close()
					return
				}
			}
			go func() {
				c.arm(pingEvery, c.ping)
				if !direct {
					go c.writer()
				}
				c.reader()
				c.mu.Lock()
				c.timer.Stop()
				c.mu.Unlock()
				for _, ch := range c.chans {
					ch.mu.Lock()
					delete(ch.subs, c)
					ch.mu.Unlock()
				}
				if direct {
					c.mu.Lock()
					c.over = true // from here on nobody uses c.fd
					c.mu.Unlock()
					ws.Close()
				}
			}()
		})
		go http.Serve(l, mux)
		fmt.Printf("node %d %s\n", i, l.Addr())
	}
	io.Copy(io.Discard, os.Stdin) // ends with its standard input, as cf_server does
}
