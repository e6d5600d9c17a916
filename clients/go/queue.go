package jnl

// queue is the calls that have no answer yet, in the order of their records.
type queue struct {
	all   []*call
	first int    // those before it were taken
	added uint64 // how many there ever were
}

func (q *queue) len() int {
	return len(q.all) - q.first
}

// add adds a call, and numbers it.
func (q *queue) add(c *call) {
	c.number = q.added
	q.added++
	if len(q.all) == cap(q.all) && q.first > len(q.all)/2 {
		q.all = q.all[:copy(q.all, q.all[q.first:])]
		q.first = 0
	}
	q.all = append(q.all, c)
}

// next returns the first call. There is one.
func (q *queue) next() *call {
	return q.all[q.first]
}

// take removes the first call.
func (q *queue) take() *call {
	c := q.next()
	q.all[q.first] = nil
	if q.first++; q.first == len(q.all) {
		q.all, q.first = q.all[:0], 0
	}
	return c
}

// unanswered returns the calls, until one is added or taken.
func (q *queue) unanswered() []*call {
	return q.all[q.first:]
}
