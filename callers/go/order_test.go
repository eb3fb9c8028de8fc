package order_test

import (
	"encoding/json"
	"errors"
	"reflect"
	"strings"
	"sync"
	"testing"

	"example.com/order"
)

const (
	good = `{"customer":"Ada","lines":[{"code":"P1","count":1},{"code":"P22","count":99}]}`
	bad  = `{"customer":"","lines":[{"code":"X","count":0},{"code":"P","count":100}]}`
)

func TestFaults(t *testing.T) {
	faults, err := order.Check([]byte(bad))
	if err != nil || len(faults.List) != 4 || faults.More {
		t.Fatal(faults, err)
	}
	want := order.Fault{
		Pointer: "/lines/1/count",
		Detail:  "greater than 99",
		Code:    "range_greater_than",
		Params:  map[string]string{"max": "99"},
	}
	if !reflect.DeepEqual(faults.List[3], want) {
		t.Error(faults.List[3])
	}
}

func TestPlaces(t *testing.T) {
	faults, err := order.Check([]byte("{\"customer\":\"\",\n \"lines\":[],\"é\":1,\"x\":1}"), order.Places())
	if err != nil || len(faults.List) != 4 {
		t.Fatal(faults, err)
	}
	for i, want := range [][2]int{{1, 13}, {2, 10}, {2, 13}, {2, 19}} {
		if it := faults.List[i]; [2]int{it.Line, it.Column} != want {
			t.Error(it, want)
		}
	}
	if faults, err = order.Check([]byte(bad)); err != nil || faults.List[0].Line != 0 {
		t.Error(faults, err)
	}
}

func TestNoFault(t *testing.T) {
	faults, err := order.Check([]byte(good))
	if err != nil || len(faults.List) != 0 || faults.More {
		t.Error(faults, err)
	}
}

func TestOptions(t *testing.T) {
	faults, err := order.Check([]byte(bad), order.Most(1))
	if err != nil || len(faults.List) != 1 || !faults.More {
		t.Error(faults, err)
	}
	faults, err = order.Check([]byte(bad), order.Language("cs"))
	if err != nil || faults.List[0].Detail != "délka je menší než 1" {
		t.Error(faults, err)
	}
	for _, most := range []int{0, -1} {
		if _, err = order.Check([]byte(bad), order.Most(most)); !errors.Is(err, order.ErrMost) {
			t.Error(err)
		}
	}
}

func TestNotJSON(t *testing.T) {
	for _, body := range [][]byte{nil, {}, []byte("nope"), []byte("{\"customer\":\"Ada\",\n  \"lines\":[,]}")} {
		_, err := order.Check(body)
		var found *order.NotJSONError
		if !errors.As(err, &found) || !strings.Contains(found.Detail, " at line ") {
			t.Errorf("%q: %v", body, err)
		} else if !strings.Contains(string(found.Details), found.Detail) {
			t.Errorf("%q: %s", body, found.Details)
		}
	}
}

func TestIsValid(t *testing.T) {
	for body, want := range map[string]bool{good: true, bad: false, "": false, "nope": false} {
		if found, err := order.IsValid([]byte(body)); err != nil || found != want {
			t.Errorf("%q: %v, %v", body, found, err)
		}
	}
}

func TestProblem(t *testing.T) {
	for body, want := range map[string]int{good: 200, bad: 422, "": 400} {
		status, details, err := order.Problem([]byte(body))
		if err != nil || status.HTTP() != want || (len(details) == 0) != (want == 200) {
			t.Errorf("%q: %v, %s, %v", body, status, details, err)
		}
	}
}

// Details that are longer than the room of a first call are whole.
func TestManyFaults(t *testing.T) {
	lines := strings.Repeat(`{"code":"X","count":0},`, 40) + `{"code":"X","count":0}`
	faults, err := order.Check([]byte(`{"customer":"","lines":[` + lines + `]}`))
	if err != nil || len(faults.List) != 83 || faults.List[82].Pointer != "/lines/40/count" {
		t.Error(len(faults.List), err)
	}
}

// A checker gives the answers of single calls, in as many goroutines as there are checkers.
func TestCheckers(t *testing.T) {
	var all sync.WaitGroup
	for i := 0; i < 16; i++ {
		all.Add(1)
		go func() {
			defer all.Done()
			checker, err := order.NewChecker(4096)
			if err != nil {
				t.Error(err)
				return
			}
			defer checker.Close()
			for j := 0; j < 1000; j++ {
				body := []byte([]string{good, bad, "nope", ""}[j%4])
				kept, keptErr := checker.Check(body)
				fresh, freshErr := order.Check(body)
				if !reflect.DeepEqual(kept, fresh) || !reflect.DeepEqual(keptErr, freshErr) {
					t.Error(kept, keptErr, fresh, freshErr)
				}
			}
		}()
	}
	all.Wait()
}

type line struct {
	Code  string `json:"code"`
	Count uint8  `json:"count"`
}

type whole struct {
	Customer *string `json:"customer"`
	Lines    []line  `json:"lines"`
	Kept     int
}

func TestDecode(t *testing.T) {
	ada := "A\u010f\"a"
	it := whole{Kept: 5}
	faults, err := order.Decode([]byte(`{"lines":[{"count":1,"code":"P1"},{"code":"P\u0032","count":99}],"customer":"A\u010f\"a"}`), &it)
	want := whole{&ada, []line{{"P1", 1}, {"P2", 99}}, 5}
	if err != nil || len(faults.List) != 0 || !reflect.DeepEqual(it, want) {
		t.Error(it, faults, err)
	}
	faults, err = order.Decode([]byte(bad), &it, order.Most(1))
	if err != nil || len(faults.List) != 1 || !faults.More || !reflect.DeepEqual(it, want) {
		t.Error(it, faults, err)
	}
	var found *order.NotJSONError
	if _, err = order.Decode([]byte("nope"), &it); !errors.As(err, &found) || len(found.Details) == 0 {
		t.Error(err)
	}
	for _, into := range []any{nil, it, (*whole)(nil), 5} {
		if _, err = order.Decode([]byte(good), into); !errors.Is(err, order.ErrTarget) {
			t.Error(err)
		}
	}
}

// What encoding/json makes of a body, Decode makes of it.
func TestDecodeAny(t *testing.T) {
	for _, lines := range []int{1, 50} {
		body := []byte(`{"customer":"Ad\u00e9 \ud83d\ude00","lines":[` + strings.Repeat(`{"code":"P\t1","count":7},`, lines-1) + `{"code":"P1","count":1}]}`)
		var ours, theirs any
		_, err := order.Decode(body, &ours)
		if err != nil || json.Unmarshal(body, &theirs) != nil || !reflect.DeepEqual(ours, theirs) {
			t.Error(ours, theirs, err)
		}
		var named map[string]any
		if _, err = order.Decode(body, &named); err != nil || !reflect.DeepEqual(any(named), theirs) {
			t.Error(named, err)
		}
	}
}

func TestDecodeIntoOthers(t *testing.T) {
	type text struct {
		Customer int `json:"customer"`
	}
	type count struct {
		Lines []struct {
			Count bool `json:"count"`
		} `json:"lines"`
	}
	type small struct {
		Lines []struct {
			Count int8 `json:"count"`
			Code  any  `json:"code"`
		} `json:"lines"`
	}
	for _, row := range []struct {
		into any
		want string
	}{
		{&text{}, `"/customer": a text does not fit into int`},
		{&count{}, `"/lines/0/count": a number does not fit into bool`},
		{&[]int{}, `"": an object does not fit into []int`},
		{new(string), `"": an object does not fit into string`},
		{&map[int]any{}, `"": an object does not fit into map[int]interface {}`},
		{&small{}, ""},
	} {
		var found *order.FieldError
		_, err := order.Decode([]byte(good), row.into)
		if (row.want == "") != (err == nil) || (err != nil && (!errors.As(err, &found) || err.Error() != row.want)) {
			t.Error(err, row.want)
		}
	}
}
