package order

import (
	"encoding"
	"fmt"
	"math"
	"reflect"
	"strconv"
	"strings"
	"sync"
)

// A FieldError says that a value which was judged does not fit into the type of the program: the library checks by another type.
type FieldError struct {
	Pointer string // where the value is: a JSON Pointer (RFC 6901)
	Found   string // what it is, as "a text"
	Type    reflect.Type
}

func (e *FieldError) Error() string {
	return fmt.Sprintf("%q: %s does not fit into %s", e.Pointer, e.Found, e.Type)
}

// A node as order.h has it.
type node struct {
	kind    uint8
	inTexts bool
	len     uint32
	value   uint64
}

// The kinds of nodes, and how an error names them.
const (
	isNull = iota
	isFalse
	isTrue
	isWhole
	isNegative
	isNumber
	isText
	isList
	isObject
)

var names = [...]string{"null", "false", "true", "a number", "a number", "a number", "a text", "a list", "an object"}

// A reading puts nodes into values. It has the bytes of texts without an escape, and of those with one.
type reading struct {
	nodes        []node
	plain, texts []byte
	next         int
}

func (r *reading) take() node {
	r.next++
	return r.nodes[r.next-1]
}

func (r *reading) text(it node) string {
	if it.inTexts {
		return string(r.texts[it.value:][:it.len])
	}
	return string(r.plain[it.value:][:it.len])
}

// digits gives the text of a number.
func (r *reading) digits(it node) string {
	switch it.kind {
	case isWhole:
		return strconv.FormatUint(it.value, 10)
	case isNegative:
		return "-" + strconv.FormatUint(it.value, 10)
	}
	return r.text(it)
}

func (r *reading) float(it node) float64 {
	if it.kind == isNumber {
		// What is too large is an infinity.
		found, _ := strconv.ParseFloat(r.text(it), 64)
		return found
	}
	if it.kind == isNegative {
		return -float64(it.value)
	}
	return float64(it.value)
}

// into puts the next value into a variable, as encoding/json does, but that a name is that of a field to the letter.
func (r *reading) into(to reflect.Value, at string) error {
	it := r.nodes[r.next]
	if it.kind == isNull && to.Kind() != reflect.Interface {
		r.next++
		if to.Kind() == reflect.Pointer || to.Kind() == reflect.Map || to.Kind() == reflect.Slice {
			to.Set(reflect.Zero(to.Type()))
		}
		return nil
	}
	if to.Kind() == reflect.Pointer {
		if to.IsNil() {
			to.Set(reflect.New(to.Type().Elem()))
		}
		return r.into(to.Elem(), at)
	}
	wrong := &FieldError{at, names[it.kind], to.Type()}
	if reader, ok := to.Addr().Interface().(encoding.TextUnmarshaler); ok && it.kind == isText {
		if err := reader.UnmarshalText([]byte(r.text(r.take()))); err != nil {
			return fmt.Errorf("%w: %v", wrong, err)
		}
		return nil
	}
	switch {
	case to.Kind() == reflect.Interface && to.NumMethod() == 0:
		found := r.any()
		to.Set(reflect.ValueOf(&found).Elem())
		return nil
	case it.kind == isList && to.Kind() == reflect.Slice:
		return r.list(to, at)
	case it.kind == isObject && to.Kind() == reflect.Struct:
		return r.object(to, at)
	case it.kind == isObject && to.Kind() == reflect.Map && to.Type().Key().Kind() == reflect.String:
		return r.members(to, at)
	}
	if !r.plainInto(r.take(), to) {
		return wrong
	}
	return nil
}

// plainInto puts a text, a number or a truth into a variable. Returns whether it fits.
func (r *reading) plainInto(it node, to reflect.Value) bool {
	isNumeral := it.kind == isWhole || it.kind == isNegative || it.kind == isNumber
	switch kind := to.Kind(); {
	case kind == reflect.String && it.kind == isText:
		to.SetString(r.text(it))
	case kind == reflect.Bool && (it.kind == isTrue || it.kind == isFalse):
		to.SetBool(it.kind == isTrue)
	case to.CanFloat() && isNumeral:
		found := r.float(it)
		if to.OverflowFloat(found) || math.IsInf(found, 0) {
			return false
		}
		to.SetFloat(found)
	case to.CanInt() && isNumeral:
		found, err := strconv.ParseInt(r.digits(it), 10, to.Type().Bits())
		if err != nil {
			return false
		}
		to.SetInt(found)
	case to.CanUint() && isNumeral:
		found, err := strconv.ParseUint(r.digits(it), 10, to.Type().Bits())
		if err != nil {
			return false
		}
		to.SetUint(found)
	default:
		return false
	}
	return true
}

func (r *reading) list(to reflect.Value, at string) error {
	count := int(r.take().value)
	to.Set(reflect.MakeSlice(to.Type(), count, count))
	for i := 0; i < count; i++ {
		if err := r.into(to.Index(i), at+"/"+strconv.Itoa(i)); err != nil {
			return err
		}
	}
	return nil
}

func (r *reading) object(to reflect.Value, at string) error {
	fields := fieldsOf(to.Type())
	for count := r.take().value; count > 0; count-- {
		name := r.text(r.take())
		index, isKnown := fields[name]
		if !isKnown {
			r.any()
			continue
		}
		field, err := to.FieldByIndexErr(index)
		if err != nil {
			return err
		}
		if err := r.into(field, at+"/"+name); err != nil {
			return err
		}
	}
	return nil
}

func (r *reading) members(to reflect.Value, at string) error {
	made := reflect.MakeMap(to.Type())
	for count := r.take().value; count > 0; count-- {
		name, value := r.text(r.take()), reflect.New(to.Type().Elem()).Elem()
		if err := r.into(value, at+"/"+name); err != nil {
			return err
		}
		made.SetMapIndex(reflect.ValueOf(name).Convert(to.Type().Key()), value)
	}
	to.Set(made)
	return nil
}

// any gives the next value, as encoding/json makes it.
func (r *reading) any() any {
	switch it := r.take(); it.kind {
	case isNull:
		return nil
	case isFalse, isTrue:
		return it.kind == isTrue
	case isText:
		return r.text(it)
	case isList:
		made := make([]any, it.value)
		for i := range made {
			made[i] = r.any()
		}
		return made
	case isObject:
		return r.anyMembers(it.value)
	default:
		return r.float(it)
	}
}

func (r *reading) anyMembers(count uint64) map[string]any {
	made := make(map[string]any, count)
	for ; count > 0; count-- {
		name := r.text(r.take())
		made[name] = r.any()
	}
	return made
}

var known sync.Map // the fields of a struct by their names, for each type

func fieldsOf(of reflect.Type) map[string][]int {
	if found, ok := known.Load(of); ok {
		return found.(map[string][]int)
	}
	made := map[string][]int{}
	for _, field := range reflect.VisibleFields(of) {
		name, _, _ := strings.Cut(field.Tag.Get("json"), ",")
		if name == "" {
			name = field.Name
		}
		if field.IsExported() && name != "-" {
			made[name] = field.Index
		}
	}
	known.Store(of, made)
	return made
}
