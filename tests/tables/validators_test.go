package schema_test

import (
	"errors"
	"reflect"
	"strings"
	"sync"
	"testing"

	"example.com/schema"
)

const wrong = "{\"type\":\"object\",\n \"properties\":{\"a\":{\"type\":\"strin\"}},\n \"pattern\":1,\"minProperties\":2,\"maxProperties\":1}"

func by(t *testing.T, text string) *schema.Validator {
	v, err := schema.New([]byte(text))
	if err != nil {
		t.Fatal(err)
	}
	return v
}

func TestSchemaAtFault(t *testing.T) {
	_, err := schema.New([]byte(wrong))
	var found *schema.SchemaError
	if !errors.As(err, &found) || found.More || !strings.HasPrefix(err.Error(), "the schema has faults: /pattern: not known here; /properties/a/type: ") {
		t.Fatal(err)
	}
	type told struct {
		pointer      string
		line, column int
	}
	var all []told
	for _, it := range found.List {
		all = append(all, told{it.Pointer, it.Line, it.Column})
	}
	if !reflect.DeepEqual(all, []told{{"/pattern", 3, 2}, {"/properties/a/type", 2, 28}, {"/maxProperties", 3, 48}}) {
		t.Error(all)
	}
}

func TestNoSchema(t *testing.T) {
	for _, text := range [][]byte{nil, {}, []byte("{"), {0xff}} {
		var found *schema.NotJSONError
		if _, err := schema.New(text); !errors.As(err, &found) {
			t.Errorf("%q: %v", text, err)
		}
	}
}

func TestTwoSchemas(t *testing.T) {
	given := []byte(`{"type":"string","maxLength":3}`)
	text, err := schema.New(given)
	if err != nil {
		t.Fatal(err)
	}
	copy(given, "                               ")
	number := by(t, `{"minimum":1}`)
	for i := 0; i < 3; i++ {
		faults, err := text.Check([]byte(`"long"`), schema.Language("de-AT"))
		if err != nil || len(faults.List) != 1 || faults.List[0].Code != "length_greater_than" || !strings.Contains(faults.List[0].Detail, "größer") {
			t.Error(faults, err)
		}
		if faults, err = number.Check([]byte(" 0"), schema.Places()); err != nil || len(faults.List) != 1 || faults.List[0].Column != 2 {
			t.Error(faults, err)
		}
		for body, want := range map[string]bool{`"x"`: true, "1": false, "nope": false} {
			if is, err := text.IsValid([]byte(body)); err != nil || is != want {
				t.Error(body, is, err)
			}
		}
		if status, details, err := text.Problem([]byte("1")); err != nil || status.HTTP() != 422 || len(details) == 0 {
			t.Error(status, details, err)
		}
		text.Close()
	}
}

func TestDecode(t *testing.T) {
	var it struct {
		Name string    `json:"name"`
		At   []float64 `json:"at"`
	}
	v := by(t, `{"properties":{"name":{"minLength":1}},"required":["at"]}`)
	if faults, err := v.Decode([]byte(`{"at":[1,2.5],"name":"\u00e9"}`), &it); err != nil || len(faults.List) != 0 || it.Name != "é" || !reflect.DeepEqual(it.At, []float64{1, 2.5}) {
		t.Error(it, faults, err)
	}
	if faults, err := v.Decode([]byte(`{"name":""}`), &it); err != nil || len(faults.List) != 2 || it.Name != "é" {
		t.Error(it, faults, err)
	}
}

func TestClones(t *testing.T) {
	v := by(t, `{"maxLength":3}`)
	var all sync.WaitGroup
	for i := 0; i < 8; i++ {
		all.Add(1)
		go func(mine *schema.Validator) {
			defer all.Done()
			for j := 0; j < 100; j++ {
				good, goodErr := mine.Check([]byte(`"x"`))
				bad, badErr := mine.Check([]byte(`"long"`))
				if goodErr != nil || badErr != nil || len(good.List) != 0 || len(bad.List) != 1 {
					t.Error(good, goodErr, bad, badErr)
				}
			}
		}(v.Clone())
	}
	all.Wait()
}

func TestFunctionsJudgeSchemas(t *testing.T) {
	if faults, err := schema.Check([]byte("true")); err != nil || len(faults.List) != 0 {
		t.Error(faults, err)
	}
	if is, err := schema.IsValid([]byte("1")); err != nil || is {
		t.Error(is, err)
	}
}
