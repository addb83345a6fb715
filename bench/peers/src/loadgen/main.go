// loadgen: the load generator for the performance anchors. One scenario per run,
// one JSON line on standard output. See bench/peers/README.md.
package main

import (
	"encoding/json"
	"flag"
	"fmt"
	"math"
	"os"
	"runtime"
	"strings"
	"sync"
	"sync/atomic"
	"time"
)

type result map[string]interface{}

var cfg struct {
	profile profile
	addrs   []string
	pid     int
	peer    string
	label   string
	token   string
	prefix  string

	subs, channels, per  int
	msgs, bytes, window  int
	frac, rate           float64
	warm                 int
	readers              int
	reader               string
	conc                 int
	levels               string
	settle               time.Duration
	hold                 time.Duration
	missed, live, during int
	rounds               int
	pubs                 int
	rbuf                 int
	limit, stall, step   time.Duration
	lazy                 time.Duration
	ref                  time.Duration
	rep                  int
}

// refLength: the CPU time that a ref is measured for, if -ref doesn't say.
const refLength = 800 * time.Millisecond

var began = time.Now()

func now() int64 { return int64(time.Since(began)) }

func round(v float64, d int) float64 {
	if math.IsNaN(v) || math.IsInf(v, 0) {
		return 0
	}
	p := math.Pow(10, float64(d))
	return math.Round(v*p) / p
}
func maxf(a, b float64) float64 {
	if a > b {
		return a
	}
	return b
}
func maxInt(a, b int) int {
	if a > b {
		return a
	}
	return b
}
func minInt(a, b int) int {
	if a < b {
		return a
	}
	return b
}

var printOnce sync.Once
var partial atomic.Value // the figures had so far, for an error line

func emit(r result) {
	printOnce.Do(func() {
		b, err := json.Marshal(r)
		if err != nil {
			b = []byte(fmt.Sprintf(`{"error":%q}`, err.Error()))
		}
		os.Stdout.Write(append(b, '\n'))
	})
}

func base(scenario string) result {
	name := scenario
	if cfg.label != "" {
		name = cfg.label
	}
	r := result{
		"scenario": name, "kind": scenario, "peer": cfg.peer, "profile": cfg.profile.String(),
		"nodes": len(cfg.addrs),
	}
	if cfg.rep > 0 {
		r["rep"] = cfg.rep
	}
	return r
}

var scenarioName string

// fail prints the error line and ends the program.
func fail(format string, a ...interface{}) {
	r, _ := partial.Load().(result)
	if r == nil {
		r = base(scenarioName)
	}
	o := result{}
	for k, v := range r {
		o[k] = v
	}
	msg := fmt.Sprintf(format, a...)
	if !alive(cfg.pid) {
		msg += " (the server process is gone)"
	}
	o["error"] = msg
	emit(o)
	os.Exit(1)
}

func main() {
	if len(os.Args) < 2 {
		fmt.Fprintln(os.Stderr, "loadgen fanout|many|connect|recover [flags]; loadgen table [-ours NAME,NAME..] FILE..; loadgen ref [N [PID]]; loadgen ports N")
		os.Exit(2)
	}
	scenarioName = os.Args[1]
	if scenarioName == "table" {
		table(os.Args[2:])
		return
	}
	if scenarioName == "ref" {
		printRefs(os.Args[2:])
		return
	}
	if scenarioName == "ports" {
		n := 1
		if len(os.Args) > 2 {
			fmt.Sscan(os.Args[2], &n)
		}
		ports(n)
		return
	}
	var prof, addrs string
	f := flag.NewFlagSet(scenarioName, flag.ExitOnError)
	f.StringVar(&prof, "profile", "v2", "v2, v1, nchan or mqtt")
	f.StringVar(&addrs, "addr", "", "HOST:PORT of the nodes, parted by commas")
	f.IntVar(&cfg.pid, "pid", 0, "the server's process; its descendants count with it")
	f.StringVar(&cfg.peer, "peer", "", "name for the result")
	f.StringVar(&cfg.label, "label", "", "scenario name for the result")
	f.StringVar(&cfg.token, "token", "", "token for the connect command (v2)")
	f.StringVar(&cfg.prefix, "prefix", "", "put before each channel name, e.g. chat:")
	f.IntVar(&cfg.subs, "s", 1000, "fanout: subscribers")
	f.IntVar(&cfg.channels, "c", 0, "many, connect, recover: channels")
	f.IntVar(&cfg.per, "k", 0, "many: subscribers of each channel; recover: clients")
	f.IntVar(&cfg.msgs, "m", 1000, "fanout, many: measured messages")
	f.IntVar(&cfg.bytes, "b", 128, "bytes of each datum")
	f.IntVar(&cfg.window, "w", 16, "publishes outstanding")
	f.Float64Var(&cfg.frac, "frac", 1, "part of the subscribers that must have a message before it leaves the window; 0: the ack alone")
	f.Float64Var(&cfg.rate, "rate", 0, "publishes per second; 0: as fast as the window lets")
	f.IntVar(&cfg.warm, "warm", -1, "messages before the measured ones; -1: a tenth")
	f.IntVar(&cfg.readers, "readers", 2, "reading threads")
	f.StringVar(&cfg.reader, "reader", "epoll", "epoll or gorilla")
	f.DurationVar(&cfg.lazy, "lazy", 0, "pause of a reading thread before it looks again (saves the server the wake-ups; adds to latency)")
	f.IntVar(&cfg.conc, "conc", 64, "connections being opened at once")
	f.StringVar(&cfg.levels, "levels", "1000,5000,10000", "connect: numbers of connections")
	f.DurationVar(&cfg.settle, "settle", 2*time.Second, "connect: pause before memory is read")
	f.DurationVar(&cfg.hold, "hold", 0, "connect: pause at the last level before the closing check")
	f.IntVar(&cfg.missed, "missed", 50, "recover: publishes missed in each channel")
	f.IntVar(&cfg.live, "live", 5, "recover: publishes in each channel before and after")
	f.IntVar(&cfg.during, "during", 40, "recover: publishes in each channel while clients come back")
	f.IntVar(&cfg.rounds, "rounds", 3, "recover: rounds of each kind")
	f.IntVar(&cfg.rbuf, "rbuf", 1024, "gorilla's read buffer")
	f.DurationVar(&cfg.ref, "ref", refLength, "CPU time that a ref is measured for, before and again after")
	f.IntVar(&cfg.rep, "rep", 0, "number of the repetition, for the result")
	f.DurationVar(&cfg.limit, "limit", 120*time.Second, "the whole run must be done in this time")
	f.DurationVar(&cfg.stall, "stall", 10*time.Second, "no progress for so long is an error")
	f.DurationVar(&cfg.step, "step", 10*time.Second, "limit for one dial, one reply, one write")
	f.Parse(os.Args[2:])
	if f.NArg() > 0 {
		fmt.Fprintln(os.Stderr, "unknown words:", f.Args())
		os.Exit(2)
	}
	var ok bool
	if cfg.profile, ok = profileOf(prof); !ok || addrs == "" {
		fmt.Fprintln(os.Stderr, "-profile or -addr missing")
		os.Exit(2)
	}
	cfg.addrs = strings.Split(addrs, ",")
	if cfg.peer == "" {
		cfg.peer = prof
	}
	if cfg.window < 1 || cfg.msgs < 1 || cfg.subs < 1 || cfg.conc < 1 || cfg.readers < 1 {
		fmt.Fprintln(os.Stderr, "-s, -m, -w, -conc and -readers must be at least 1")
		os.Exit(2)
	}
	if n := cfg.readers + 2; runtime.GOMAXPROCS(0) < n {
		runtime.GOMAXPROCS(n)
	}
	if !alive(cfg.pid) {
		fail("no process %d", cfg.pid)
	}
	time.AfterFunc(cfg.limit, func() { fail("not done after %s", cfg.limit) })
	go watchServer()
	var r result
	var err error
	switch scenarioName {
	case "fanout":
		cfg.channels, cfg.per = 1, cfg.subs
		r, err = broadcast("fanout")
	case "many":
		if cfg.channels == 0 {
			cfg.channels = 500
		}
		if cfg.per == 0 {
			cfg.per = 4
		}
		r, err = broadcast("many")
	case "connect":
		r, err = connectScenario()
	case "recover":
		r, err = recoverScenario()
	default:
		fmt.Fprintln(os.Stderr, "unknown scenario", scenarioName)
		os.Exit(2)
	}
	if err != nil {
		if r != nil {
			partial.Store(r)
		}
		fail("%v", err)
	}
	emit(r)
	if r["error"] != nil {
		os.Exit(1)
	}
}

// watchServer: a server that has gone ends the run soon, whatever waits.
func watchServer() {
	if cfg.pid == 0 {
		return
	}
	for {
		time.Sleep(250 * time.Millisecond)
		if !alive(cfg.pid) {
			time.Sleep(500 * time.Millisecond)
			fail("stopped")
		}
	}
}

// parallel runs f(0..n-1) with cfg.conc at once and stops at the first error.
func parallel(n int, f func(i int) error) error {
	var next, stop int64
	var first atomic.Value
	var wg sync.WaitGroup
	for w := 0; w < minInt(cfg.conc, n); w++ {
		wg.Add(1)
		go func() {
			defer wg.Done()
			for atomic.LoadInt64(&stop) == 0 {
				i := int(atomic.AddInt64(&next, 1)) - 1
				if i >= n {
					return
				}
				if err := f(i); err != nil {
					if atomic.CompareAndSwapInt64(&stop, 0, 1) {
						first.Store(err)
					}
					return
				}
			}
		}()
	}
	wg.Wait()
	if e, ok := first.Load().(error); ok {
		return e
	}
	return nil
}

// payload writes {"n":N,"t":T,"p":"xx.."} of cfg.bytes bytes.
func payload(dst []byte, n, t int64) []byte {
	from := len(dst)
	dst = append(dst, `{"n":`...)
	dst = appendInt(dst, n)
	dst = append(dst, `,"t":`...)
	dst = appendInt(dst, t)
	dst = append(dst, `,"p":"`...)
	for len(dst)-from < cfg.bytes-2 {
		k := cfg.bytes - 2 - (len(dst) - from)
		if k > len(padding) {
			k = len(padding)
		}
		dst = append(dst, padding[:k]...)
	}
	return append(dst, `"}`...)
}

var padding = []byte(strings.Repeat("abcdefghijklmnop", 64))

func appendInt(dst []byte, v int64) []byte { return append(dst, fmt.Sprint(v)...) }

func channelName(i int) string { return fmt.Sprintf("%sch%d", cfg.prefix, i) }
