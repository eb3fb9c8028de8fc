// begin: of a schema
package order

import (
	"runtime"
	"strings"
)

// A Validator checks bodies by a JSON Schema, as a Checker does, in room of its own. The functions of the package and a Checker
// judge schemas. One goroutine uses it at a time. A Validator is not copied: see Clone.
type Validator struct {
	Checker
}

// A SchemaError says what is wrong with a schema, with the place of each fault.
type SchemaError struct {
	Faults
}

func (e *SchemaError) Error() string {
	said := make([]string, len(e.List))
	for i, it := range e.List {
		said[i] = it.Pointer + ": " + it.Detail
	}
	return "the schema has faults: " + strings.Join(said, "; ")
}

// New keeps a copy of the bytes of a schema. Where it has faults, the error is a *SchemaError, and where the bytes are no JSON text,
// a *NotJSONError.
func New(schema []byte) (*Validator, error) {
	kept := append([]byte{}, schema...)
	faults, err := Check(kept, Places())
	if err != nil {
		return nil, err
	}
	if len(faults.List) > 0 {
		return nil, &SchemaError{faults}
	}
	return of(kept), nil
}

// of gives a validator of a schema, which was judged.
func of(schema []byte) *Validator {
	v := &Validator{Checker{schema: schema}}
	runtime.SetFinalizer(v, func(v *Validator) { v.Close() })
	return v
}

// Clone gives a validator for another goroutine: of the same schema, which is not judged again, with room of its own.
func (v *Validator) Clone() *Validator {
	return of(v.schema)
}

// IsValid says whether a body meets the schema. Reading ends at the first fault.
func (v *Validator) IsValid(body []byte) (bool, error) {
	return v.isValid(body)
}
// end: of a schema
