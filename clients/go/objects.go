package jnl

const (
	// More objects are looked up by an index, and fewer one by one.
	fewObjects = 16
	// Parts have room for so many bytes at least: two objects of 128 bytes.
	leastRoom = 320
)

// object is where the value of an object stands in the parts of a record.
type object struct {
	address    Address
	from, size int
}

// objects are values by their addresses, in the order in which these were first set. They are kept
// as the parts of a record, so that a commit copies them once.
type objects struct {
	action uint32 // of the parts
	parts  request
	list   []object
	first  [2]object       // the room of the first ones in the list
	index  map[Address]int // nil: there are few
}

// reset removes all objects. Their room stays, unless it is large.
func (o *objects) reset() {
	o.list, o.index = o.list[:0], nil
	o.parts = o.parts[:0]
	if cap(o.parts) > mostHeld {
		o.parts = nil
	}
}

// find returns the place of an object in the list, or -1.
func (o *objects) find(a Address) int {
	if o.index != nil {
		if at, ok := o.index[a]; ok {
			return at
		}
		return -1
	}
	for i := range o.list {
		if o.list[i].address == a {
			return i
		}
	}
	return -1
}

// value returns the value at a place of the list, until an object is set.
func (o *objects) value(at int) []byte {
	found := &o.list[at]
	return o.parts[found.from : found.from+found.size]
}

// get returns the value of an object, until one is set.
func (o *objects) get(a Address) ([]byte, bool) {
	at := o.find(a)
	if at < 0 {
		return nil, false
	}
	return o.value(at), true
}

// set sets an object to a copy of a value.
func (o *objects) set(a Address, value []byte) {
	if at := o.find(a); at >= 0 {
		o.replace(at, value)
		return
	}
	if o.list == nil {
		o.list = o.first[:0]
	}
	if o.parts == nil {
		o.parts = make(request, 0, leastRoom)
	}
	o.parts = o.parts.word(o.action).address(a)
	o.list = append(o.list, object{a, len(o.parts) + wordBytes, len(value)})
	o.parts = o.parts.value(value)
	if o.index != nil {
		o.index[a] = len(o.list) - 1
	} else if len(o.list) > fewObjects {
		o.index = make(map[Address]int)
		for i, each := range o.list {
			o.index[each.address] = i
		}
	}
}

// replace sets the object at a place of the list.
func (o *objects) replace(at int, value []byte) {
	before := &o.list[at]
	if len(value) == before.size {
		copy(o.parts[before.from:], value)
		return
	}
	// One of the two sizes is wrong. The last one counts, and those behind it move.
	end := before.from + before.size + padding(before.size)
	behind := clone(o.parts[end:])
	o.parts = o.parts[:before.from-wordBytes].value(value)
	moved := len(o.parts) - end
	o.parts = append(o.parts, behind...)
	before.size = len(value)
	for i := at + 1; i < len(o.list); i++ {
		o.list[i].from += moved
	}
}

// checkSizes refuses a value that no record can hold.
func (o *objects) checkSizes() error {
	for i := range o.list {
		if o.list[i].size > maxValue {
			return &ObjectRefusal{BadSize, o.list[i].address}
		}
	}
	return nil
}
