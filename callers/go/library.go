package order

/*
#cgo CFLAGS: -I${SRCDIR}/lib
#cgo amd64 LDFLAGS: ${SRCDIR}/lib/liborder.a
#cgo arm64 LDFLAGS: ${SRCDIR}/lib/aarch64/liborder.a
#include "order.h"
*/
import "C"

import (
	"errors"
	"fmt"
	"reflect"
	"runtime"
	"unsafe"
)

// room is what a first call has for details. Longer ones take a second call.
const room = 1024

// ErrTarget is returned where what a value is to be put into is no pointer, or nil.
var ErrTarget = errors.New("a value is put where a pointer points")

func init() {
	if unsafe.Sizeof(node{}) != C.sizeof_order_node {
		panic("order_node of order.h has another layout")
	}
}

// What the library owes is proved. What is owed to it stands in the head of order.h, in four lines:
//  1. start gives a pointer that is not nil, also of a slice without bytes.
//  2. out and length are made here, and a checker is no part of them. Whoever changes a body during a call has a data race.
//  3. A checker begins with all bytes 0, and only this file uses it. That one goroutine uses it at a time is said at Checker.
//  4. Go's own memory is not the C library's. A handler of signals in Go runs as any goroutine does.

func init() {
	if found := C.order_version(); found != C.ORDER_VERSION {
		panic(fmt.Sprintf("liborder.a has version %d of the interface, and order.h has %d", found, C.ORDER_VERSION))
	}
}

// start points to the first byte, or to some byte where there is none.
func start(bytes []byte) *C.uint8_t {
	if len(bytes) == 0 {
		bytes = []byte{0}
	}
	return (*C.uint8_t)(unsafe.Pointer(&bytes[0]))
}

// call checks a body. The details are cut at the end of out, and the length is that of the whole.
func (c *Checker) call(body []byte, o options, out []byte) (C.uint8_t, int) {
	var length C.size_t
	language := []byte(o.language)
	status := C.order_check_with(&c.raw,
		// begin: of a schema
		start(c.schema), C.size_t(len(c.schema)),
		// end: of a schema
		start(body), C.size_t(len(body)), C.size_t(o.most),
		start(language), C.size_t(len(language)), start(out), C.size_t(len(out)), &length)
	return status, int(length)
}

// Problem gives the status of a body and its problem details, as the function Problem does.
func (c *Checker) Problem(body []byte, given ...Option) (Status, []byte, error) {
	meant, err := read(given)
	if err != nil {
		return Valid, nil, err
	}
	out := make([]byte, room)
	status, length := c.call(body, meant, out)
	if length > len(out) {
		out = make([]byte, length)
		status, length = c.call(body, meant, out)
	}
	if status == C.ORDER_MEMORY {
		return Valid, nil, ErrMemory
	}
	return Status(status), out[:length], nil
}

func (c *Checker) isValid(body []byte) (bool, error) {
	status := C.order_is_valid(
		// begin: of a schema
		start(c.schema), C.size_t(len(c.schema)),
		// end: of a schema
		start(body), C.size_t(len(body)))
	if status == C.ORDER_MEMORY {
		return false, ErrMemory
	}
	return status == C.ORDER_VALID, nil
}

// A Checker keeps its room from one body to the next. Its answers do not depend on what was checked before. One goroutine uses it
// at a time. A Checker is not copied.
type Checker struct {
	raw C.order_checker
	// begin: of a schema

	// One without bytes is the schema of schemas.
	schema []byte
	// end: of a schema
}

// NewChecker gives a checker with room for bodies of so many bytes. Longer ones are checked too.
func NewChecker(bodyLen uint32) (*Checker, error) {
	c := &Checker{}
	runtime.SetFinalizer(c, (*Checker).Close)
	if C.order_reserve(&c.raw, C.uint32_t(bodyLen)) != C.ORDER_VALID {
		return nil, ErrMemory
	}
	return c, nil
}

// startOf points to the first node.
func startOf(nodes []node) *C.order_node {
	return (*C.order_node)(unsafe.Pointer(&nodes[0]))
}

// wanted is how much room faults take: nodes, bytes of texts, and places.
type wanted struct {
	nodes, texts, places int
}

// faults gives the status of a body, its faults as nodes, and where they are.
func (c *Checker) faults(body []byte, o options, has wanted) (Status, reading, []C.order_place) {
	var noDetails, nodesUsed, textsUsed, placesUsed C.size_t
	nodes, texts, language := make([]node, has.nodes), make([]byte, has.texts), []byte(o.language)
	places := make([]C.order_place, has.places+1)
	status := C.order_faults_with(&c.raw,
		// begin: of a schema
		start(c.schema), C.size_t(len(c.schema)),
		// end: of a schema
		start(body), C.size_t(len(body)), C.size_t(o.most), start(language), C.size_t(len(language)),
		start(nil), 0, &noDetails, startOf(nodes), C.size_t(has.nodes), &nodesUsed,
		start(texts), C.size_t(has.texts), &textsUsed, &places[0], C.size_t(has.places), &placesUsed)
	if used := (wanted{int(nodesUsed), int(textsUsed), int(placesUsed)}); used.nodes > has.nodes || used.texts > has.texts || used.places > has.places {
		return c.faults(body, o, wanted{used.nodes + 1, used.texts, used.places})
	}
	return Status(status), reading{nodes: nodes, texts: texts}, places[:placesUsed]
}

// value gives the status of a body, and the nodes of its value.
func (c *Checker) value(body []byte, room int) (Status, reading) {
	var nodesUsed, textsUsed C.size_t
	nodes, texts := make([]node, room), make([]byte, len(body))
	status := C.order_value_with(&c.raw,
		// begin: of a schema
		start(c.schema), C.size_t(len(c.schema)),
		// end: of a schema
		start(body), C.size_t(len(body)), startOf(nodes), C.size_t(room), &nodesUsed,
		start(texts), C.size_t(len(texts)), &textsUsed)
	if int(nodesUsed) > room {
		return c.value(body, int(nodesUsed))
	}
	return Status(status), reading{nodes: nodes, plain: body, texts: texts}
}

// Check gives the faults of a body, as the function Check does.
func (c *Checker) Check(body []byte, given ...Option) (Faults, error) {
	meant, err := read(given)
	if err != nil {
		return Faults{}, err
	}
	has := wanted{nodes: room, texts: 8 * room}
	if meant.places {
		has.places = room
	}
	status, found, places := c.faults(body, meant, has)
	if status == Valid || status == C.ORDER_MEMORY {
		return Faults{}, map[Status]error{C.ORDER_MEMORY: ErrMemory}[status]
	}
	var said told
	if err := found.into(reflect.ValueOf(&said).Elem(), ""); err != nil {
		return Faults{}, err
	}
	if status == NotJSON {
		_, details, err := c.Problem(body, given...)
		if err != nil {
			return Faults{}, err
		}
		return Faults{}, &NotJSONError{Detail: said.Detail, Details: details}
	}
	for i, it := range places {
		said.Errors[i].Line, said.Errors[i].Column = int(it.line), int(it.column)
	}
	return Faults{List: said.Errors, More: said.Detail != ""}, nil
}

// Decode puts the value of a valid body where into points, as the function Decode does.
func (c *Checker) Decode(body []byte, into any, given ...Option) (Faults, error) {
	to := reflect.ValueOf(into)
	if to.Kind() != reflect.Pointer || to.IsNil() {
		return Faults{}, ErrTarget
	}
	status, found := c.value(body, len(body)/4+1)
	if status != Valid {
		return c.Check(body, given...)
	}
	return Faults{}, found.into(to.Elem(), "")
}

// Close frees the room. A second call does nothing. Where no call is made, the room is freed with the Checker.
func (c *Checker) Close() error {
	C.order_free(&c.raw)
	return nil
}
