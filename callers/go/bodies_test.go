package order_test

import (
	"bytes"
	"encoding/binary"
	"encoding/json"
	"fmt"
	"os"
	"reflect"
	"testing"

	"example.com/order"
)

type details struct {
	Detail string
	Errors []order.Fault
}

// piece takes so many bytes.
func piece(from *bytes.Buffer, length uint32) []byte {
	return append([]byte{}, from.Next(int(length))...)
}

// numbers takes so many numbers.
func numbers(from *bytes.Buffer, count int) []uint32 {
	found := make([]uint32, count)
	for i := range found {
		found[i] = binary.LittleEndian.Uint32(from.Next(4))
	}
	return found
}

// compareValue compares the value of a valid body with the one that encoding/json makes.
func compareValue(t *testing.T, c *order.Checker, body []byte) {
	var found, want any
	faults, err := c.Decode(body, &found)
	if err != nil || len(faults.List) != 0 {
		t.Fatalf("%q: %v, %v", body, faults, err)
	}
	if err := json.Unmarshal(bytes.TrimPrefix(body, []byte("\ufeff")), &want); err != nil || !reflect.DeepEqual(found, want) {
		t.Fatalf("%q: %v is not %v, %v", body, found, want, err)
	}
}

// compareFaults compares what is wrong with a body with the details in an answer, behind which the place of each fault is.
func compareFaults(t *testing.T, c *order.Checker, body, answer []byte, options []order.Option) {
	_, text, err := c.Problem(body, options...)
	var want details
	if err != nil || json.Unmarshal(text, &want) != nil {
		t.Fatalf("%q: %v", body, err)
	}
	faults, err := c.Check(body, options...)
	if _, noJSON := err.(*order.NotJSONError); noJSON {
		faults = order.Faults{List: want.Errors, More: want.Detail != ""}
	}
	for i, it := range faults.List {
		text = append(text, fmt.Sprintf(" %d:%d", it.Line, it.Column)...)
		faults.List[i].Line, faults.List[i].Column = 0, 0
	}
	if len(faults.List) != len(want.Errors) || faults.More != (want.Detail != "") {
		t.Fatalf("%q: %v is not %v", body, faults, want)
	}
	for i, it := range faults.List {
		if !reflect.DeepEqual(it, want.Errors[i]) {
			t.Fatalf("%q: %v is not %v", body, it, want.Errors[i])
		}
	}
	if !bytes.Equal(text, answer) {
		t.Fatalf("%q: %q is not %q", body, text, answer)
	}
}

// Bodies of a file, most of them spoiled, beside what a program in C answers to them, in the folder that ORDER_BODIES names.
func TestBodies(t *testing.T) {
	folder := os.Getenv("ORDER_BODIES")
	if folder == "" {
		t.Skip("ORDER_BODIES names no folder")
	}
	var files [2]*bytes.Buffer
	for i, name := range []string{"/bodies", "/answers"} {
		read, err := os.ReadFile(folder + name)
		if err != nil {
			t.Fatal(err)
		}
		files[i] = bytes.NewBuffer(read)
	}
	c, err := order.NewChecker(0)
	if err != nil {
		t.Fatal(err)
	}
	for files[0].Len() > 0 {
		asked := numbers(files[0], 3)
		body := piece(files[0], asked[0])
		said := numbers(files[1], 2)
		answer := piece(files[1], said[1])
		options := []order.Option{order.Language("cs"[:asked[2]]), order.Places()}
		if asked[1] < 1<<31 {
			options = append(options, order.Most(int(asked[1])))
		}
		status, _, err := c.Problem(body, options...)
		if err != nil || uint32(status) != said[0] {
			t.Fatalf("%q: status %d, %v", body, status, err)
		}
		if status == order.Valid {
			compareValue(t, c, body)
		} else {
			compareFaults(t, c, body, answer, options)
		}
	}
}
