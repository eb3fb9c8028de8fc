// Package order checks bodies in JSON by the library of order.h, whose answers are proved. It reports every fault of a body as a
// value, or as problem details (RFC 9457).
//
// Check needs no preparation. A Checker keeps its room from one body to the next. Any number of goroutines may call at a time.
package order

import (
	"errors"
	"math"
)

// A Fault is one thing that is wrong with a body.
type Fault struct {
	Pointer string            `json:"pointer"` // where it is: a JSON Pointer (RFC 6901)
	Detail  string            `json:"detail"`  // a sentence for people
	Code    string            `json:"code"`    // a name for programs
	Params  map[string]string `json:"params"`  // what the sentence speaks of, as the bound of a range
	Line    int               `json:"-"`       // where it is in the body, from 1 on, if Places asked for it
	Column  int               `json:"-"`       // in characters from 1 on
}

// Faults are what is wrong with a body: a valid one has none.
type Faults struct {
	List []Fault
	More bool // there are more than were asked for
}

// A Status says how a check ended.
type Status uint8

// The statuses of which a check gives details, and that of a valid body.
const (
	Valid     Status = 0
	HasFaults Status = 1
	NotJSON   Status = 2
)

// HTTP is the status of HTTP for it: 200, 422 or 400.
func (s Status) HTTP() int {
	return [...]int{Valid: 200, HasFaults: 422, NotJSON: 400}[s]
}

var (
	// ErrMemory is returned where memory ran out.
	ErrMemory = errors.New("out of memory")
	// ErrMost is returned where not even one fault is asked for.
	ErrMost = errors.New("at least one fault has to be asked for")
)

// A NotJSONError is returned of bytes that are no JSON text.
type NotJSONError struct {
	Detail  string // the reason, with line and column
	Details []byte // the problem details
}

func (e *NotJSONError) Error() string {
	return e.Detail
}

// An Option says what a check reports.
type Option func(*options)

type options struct {
	most     int
	language string
	places   bool
}

// Most asks for so many faults at most. Without it all are reported.
func Most(faults int) Option {
	return func(o *options) { o.most = faults }
}

// Language asks for sentences in the language of a tag (RFC 5646). Of one that the library has not, they are English.
func Language(tag string) Option {
	return func(o *options) { o.language = tag }
}

// Places asks where in the body each fault is: of an unknown or a repeated member its name, and else its value.
func Places() Option {
	return func(o *options) { o.places = true }
}

// read gives the options that are meant.
func read(given []Option) (options, error) {
	meant := options{most: math.MaxInt}
	for _, option := range given {
		option(&meant)
	}
	if meant.most < 1 {
		return meant, ErrMost
	}
	return meant, nil
}

// told is what problem details say.
type told struct {
	Detail string  `json:"detail"`
	Errors []Fault `json:"errors"`
}

// Check gives the faults of a body. Where the bytes are no JSON text, the error is a *NotJSONError.
func Check(body []byte, given ...Option) (Faults, error) {
	var c Checker
	defer c.Close()
	return c.Check(body, given...)
}

// Decode puts the value of a valid body where into points: it is the one that was judged, and no second reader reads the body. It
// goes by the tags of encoding/json. A body with faults has no value: into stays as it was. A value that does not fit into the type
// is a *FieldError, and what came before it is put.
func Decode(body []byte, into any, given ...Option) (Faults, error) {
	var c Checker
	defer c.Close()
	return c.Decode(body, into, given...)
}

// Problem gives the status of a body and its problem details, of the media type application/problem+json. Of a valid body there
// are none.
func Problem(body []byte, given ...Option) (Status, []byte, error) {
	var c Checker
	defer c.Close()
	return c.Problem(body, given...)
}

// IsValid says whether a body is valid. Reading ends at the first fault, and bytes that are no JSON text are not valid.
func IsValid(body []byte) (bool, error) {
	var c Checker
	return c.isValid(body)
}
