package main

import (
	"fmt"
	"math"
	"sort"
)

// measure: one row of "times the first of ours", by the keys of its two figures.
type measure struct{ name, us, refs string }

func measuresOf(scenario, kind string) []measure {
	switch {
	case kind == "connect":
		return []measure{{"connection", "cpu_us_per_conn", "cpu_refs_per_conn"}}
	case kind == "recover":
		return []measure{
			{"come back", "cpu_us_per_full", "cpu_refs_per_full"},
			{"subscribe again", "cpu_us_per_ask", "cpu_refs_per_ask"},
		}
	case scenario == "fanout-10":
		return []measure{{"publish", "cpu_us_per_pub", "cpu_refs_per_pub"}}
	}
	return []measure{{"delivery", "cpu_us_per_deliv", "cpu_refs_per_deliv"}}
}

// times prints, for each of ours but the first, what it costs beside the first.
func (b *book) times(ours []string) {
	first := ours[0]
	for _, other := range ours[1:] {
		fmt.Printf("\n### Times the first of ours: %s beside %s\n\n", other, first)
		fmt.Printf("CPU time of the server, medians; ratios are %s / %s. \"Paired\" is the median of the ratios of runs of the same repetition; behind it is between what it lies 19 times of 20 (of less than six pairs, less often), from the spread of these ratios.\n\n", other, first)
		head := []string{"scenario", "of a", "pairs"}
		for _, unit := range []string{"us", "refs"} {
			head = append(head, unit+": "+first, other, "ratio of medians", "paired")
		}
		var rows [][]string
		for _, name := range b.order {
			for _, m := range measuresOf(name, b.groups[name].kind) {
				rows = append(rows, m.row(name, b.runs(name, first), b.runs(name, other)))
			}
		}
		printTable(head, rows)
	}
}

func (m measure) row(scenario string, first, other []result) []string {
	row := []string{scenario, m.name, fmt.Sprint(len(paired(first, other, m.us)))}
	for _, key := range []string{m.us, m.refs} {
		row = append(row, median(first, key), median(other, key), ratioOfMedians(first, other, key), pairedRatio(first, other, key))
	}
	return row
}

func ratioOfMedians(first, other []result, key string) string {
	a, b := values(first, key), values(other, key)
	if len(a) == 0 || len(b) == 0 || middle(a) == 0 {
		return "-"
	}
	return fmt.Sprintf("%.3f", middle(b)/middle(a))
}

// pairedRatio: median (between what it lies).
func pairedRatio(first, other []result, key string) string {
	v := paired(first, other, key)
	if len(v) == 0 {
		return "-"
	}
	k := outside(len(v))
	return fmt.Sprintf("%.3f (%.2f to %.2f)", middle(v), v[k], v[len(v)-1-k])
}

// outside: how many of n sorted values may be left out at each end so that the true
// median still lies within the others 19 times of 20; 0 for less than nine. (Of
// less than six not even all do.)
func outside(n int) int {
	k, one := 0, math.Pow(0.5, float64(n)) // one: the chance that just k lie below the median
	for below := one; ; k++ {
		one *= float64(n-k) / float64(k+1)
		below += one
		if below > 0.025 {
			return k
		}
	}
}

// paired answers, sorted, the ratio of each two runs of the same repetition, both
// without error. They stand next to each other in time, so what the machine does
// from one repetition to the next isn't in it.
func paired(first, other []result, key string) []float64 {
	was := byRep(first, key)
	var v []float64
	for rep, x := range byRep(other, key) {
		if a, ok := was[rep]; ok && a > 0 {
			v = append(v, x/a)
		}
	}
	sort.Float64s(v)
	return v
}

// byRep: a figure by the number of the repetition; of lines that don't have it, the
// place among those of the peer.
func byRep(rs []result, key string) map[int]float64 {
	v := map[int]float64{}
	for i, r := range rs {
		rep := i + 1
		if n, ok := r["rep"].(float64); ok {
			rep = int(n)
		}
		if x, ok := r[key].(float64); ok && r["error"] == nil {
			v[rep] = x
		}
	}
	return v
}
