// check [LANGUAGE]: checks the body on standard input, writes the problem details of what is wrong to standard output, and ends
// with the status of the check. Where a device fails it ends with 10.
//
// Of a library that takes a schema it is check SCHEMA [LANGUAGE], with the file of one. The details of a schema that is none are
// written too, and it ends with 10.
package main

import (
	"errors"
	"io"
	"os"
	"strings"

	library "example.com/order"
)

const (
	noMemory = 3
	failed   = 10
)

func check(words []string) int {
	problem := library.Problem
	// begin: of a schema
	if len(words) == 0 {
		return failed
	}
	schema, err := os.ReadFile(words[0])
	if err != nil {
		return failed
	}
	if _, details, err := problem(schema); err != nil || len(details) > 0 {
		os.Stdout.Write(details)
		return failed
	}
	validator, err := library.New(schema)
	if err != nil {
		return failed
	}
	problem, words = validator.Problem, words[1:]
	// end: of a schema
	body, err := io.ReadAll(os.Stdin)
	if err != nil {
		return failed
	}
	status, details, err := problem(body, library.Language(strings.Join(words, "")))
	if errors.Is(err, library.ErrMemory) {
		return noMemory
	}
	if err != nil {
		return failed
	}
	if _, err := os.Stdout.Write(details); err != nil {
		return failed
	}
	return int(status)
}

func main() {
	os.Exit(check(os.Args[1:]))
}
