package main

import "sort"

// rounds are the figures of recover's timed rounds, by kind. A round takes the server
// some 50 ms, less than a processor stays fast or slow; so its costs are not
// divided by a ref of its own, but by the mean of all refs of the run: one before
// each timed round and one after the last.
type rounds struct {
	best map[string]float64   // clients a second
	cost map[string][]float64 // us of each client
	refs []float64
}

func newRounds() *rounds {
	return &rounds{best: map[string]float64{}, cost: map[string][]float64{}}
}

// ref measures one more, between rounds.
func (r *rounds) ref() {
	if x := ref(cfg.pid); x > 0 {
		r.refs = append(r.refs, x)
	}
}

// add takes a round of n clients between two samples.
func (r *rounds) add(kind string, a, b sample, n int) {
	rate := float64(n) * 1e9 / float64(b.at-a.at)
	if rate > r.best[kind] {
		r.best[kind] = rate
	}
	r.cost[kind] = append(r.cost[kind], spent(a, b)/float64(n))
}

// into puts them into the result: the best rate and the least cost, and in refs the
// median cost.
func (r *rounds) into(res result) {
	mean := 0.0
	for _, x := range r.refs {
		mean += x / float64(len(r.refs))
	}
	if mean > 0 {
		res["ref_us"] = round(mean, 3)
	}
	for kind, cost := range r.cost {
		sort.Float64s(cost)
		res[kind+"_per_s"] = round(r.best[kind], 0)
		res["cpu_us_per_"+kind] = round(cost[0], 2)
		res["cpu_us_median_per_"+kind] = round(middle(cost), 2)
		if mean > 0 {
			res["cpu_refs_per_"+kind] = round(middle(cost)/mean, 3)
		}
	}
}
