package snap

import (
	"errors"
	"fmt"
	"math"
	"math/big"
	"net/netip"
	"os"
	"os/exec"
	"path/filepath"
	"strings"
	"testing"
	"time"
	"unsafe"
)

type state int

const paid state = 1

type level uint8

func (s state) String() string { return [...]string{"open", "paid"}[s] }

type base struct{ ID int }

type order struct {
	base
	Name   string `json:"name,omitempty"`
	Secret string `json:"-"`
	State  state
	Next   *order
	hidden int
}

type endless *endless

type loop struct{ Inner *loop }

func TestValues(t *testing.T) {
	seven := 7
	moment := time.Date(2024, 2, 29, 12, 30, 0, 5000000, time.FixedZone("", 3600))
	var none *int
	var nothing any
	rows := []struct {
		name   string
		value  any
		wanted string
	}{
		{"nil", nil, `null`},
		{"nil pointer, interface, map, slice", []any{none, nothing, map[string]int(nil), []int(nil)}, `[null,null,null,null]`},
		{"truths", []bool{true, false}, `[true,false]`},
		{"whole numbers", []any{int8(-128), uint64(math.MaxUint64), int64(math.MinInt64)}, `[-128,18446744073709551615,-9223372036854775808]`},
		{"the largest big.Int", new(big.Int).Set(largest), `340282366920938463463374607431768211455`},
		{"the smallest big.Int", *smallest, `-170141183460469231731687303715884105728`},
		{"floats", []float64{1, 1.5, 0.1, 1e21, 1e-7}, `["1","1.5","0.1","1e+21","1e-07"]`},
		{"a float of 32 bits", float32(0.1), `"0.1"`},
		{"no numbers", []float64{math.NaN(), math.Inf(1), math.Inf(-1)}, `["nan","inf","-inf"]`},
		{"texts", "a/b <c> & \"d\" \\ \n\x01 é 😀", `"a/b <c> & \"d\" \\ \n\u0001 é 😀"`},
		{"a time", moment, `"2024-02-29T12:30:00.005+01:00"`},
		{"a duration", 90 * time.Second, `"1m30s"`},
		{"bytes", []any{[]byte("snap"), [2]byte{255, 0}, []byte{}}, `["c25hcA==","/wA=",""]`},
		{"lists of numbers with names", []any{[]state{0, paid}, []level{1, 2}}, `[["open","paid"],[1,2]]`},
		{"a pointer", &seven, `7`},
		{"MarshalText", netip.MustParseAddr("::1"), `"::1"`},
		{"a map, sorted by the texts of its keys", map[string]int{"b": 1, "a": 2, "10": 3, "9": 4}, `{"10":3,"9":4,"a":2,"b":1}`},
		{"keys that are no texts", map[any]int{1: 0, true: 0, nil: 0, 1.5: 0, paid: 0, [1]int{2}: 0}, `{"1":0,"1.5":0,"[2]":0,"null":0,"paid":0,"true":0}`},
		{"a struct", order{base: base{3}, Name: "", Secret: "s", State: paid, Next: &order{}},
			`{"base":{"ID":3},"name":"","State":"paid","Next":{"base":{"ID":0},"name":"","State":"open","Next":null}}`},
		{"a key as long as it may be", map[string]int{strings.Repeat("é", 1022): 1}, `{"` + strings.Repeat("é", 1022) + `":1}`},
		{"nothing in it", []any{[]int{}, map[int]int{}, "", struct{}{}}, `[[],{},"",{}]`},
	}
	for _, row := range rows {
		if got, err := toJSON(row.value, ""); err != nil || got != row.wanted {
			t.Errorf("%s: %v\n%s, but wanted\n%s", row.name, err, got, row.wanted)
		}
	}
}

func TestRefusals(t *testing.T) {
	circle := &loop{}
	circle.Inner = circle
	var pointer endless
	pointer = &pointer
	var deep any = []any{}
	for level := 1; level < 200; level++ {
		deep = []any{deep}
	}
	if _, err := toJSON(deep, ""); err != nil {
		t.Errorf("a list 200 deep: %v", err)
	}
	rows := []struct {
		value  any
		wanted string
	}{
		{map[string]any{"total": power(128)}, `.total: a whole number of more than 128 bits`},
		{[]any{new(big.Int).Sub(smallest, big.NewInt(1))}, `[0]: a whole number of more than 128 bits`},
		{map[string]any{"a b": func() {}}, `["a b"]: a value of the type func() can't be handed over`},
		{struct{ C chan int }{make(chan int)}, `.C: a value of the type chan int can't`},
		{complex(1, 2), `the value: a value of the type complex128 can't`},
		{uintptr(1), `the value: a value of the type uintptr can't`},
		{unsafe.Pointer(t), `the value: a value of the type unsafe.Pointer can't`},
		{errors.New("no"), `the value: a value of the type errors.errorString, which has no field that is exported`},
		{[]string{"a", "\xff"}, `[1]: a text that is no UTF-8`},
		{map[any]int{1: 0, "1": 0}, `["1"]: two keys with one text`},
		{struct {
			base
			Other int `json:"base"`
		}{}, `.base: two keys with one text`},
		{map[string]int{strings.Repeat("k", 1023): 1}, `: a key of more than 1024 characters`},
		{circle, `nested more than 200 deep: does it hold itself?`},
		{[]any{deep}, `[0][0][0][0][0][0][0][0][0][0][0][0][0][..: nested more than 200 deep`},
		{pointer, `nested more than 200 deep`},
	}
	for _, row := range rows {
		if _, err := toJSON(row.value, ""); err == nil || !strings.Contains(err.Error(), row.wanted) {
			t.Errorf("%v, but wanted %s", err, row.wanted)
		}
	}
}

// fake is a test that keeps what it was told, and does its cleanups when it is ended.
type fake struct {
	name     string
	told     []string
	cleanups []func()
}

func (f *fake) Helper()          {}
func (f *fake) Name() string     { return f.name }
func (f *fake) Cleanup(c func()) { f.cleanups = append(f.cleanups, c) }
func (f *fake) Errorf(format string, words ...any) {
	f.told = append(f.told, fmt.Sprintf(format, words...))
}
func (f *fake) end() {
	for _, cleanup := range f.cleanups {
		cleanup()
	}
	f.cleanups = nil
}

// scratch sets up an empty workspace with a package in the folder p, and the mode.
func scratch(t *testing.T, mode string) string {
	t.Helper()
	was, inside := workspace, folder
	workspace, folder = t.TempDir(), "p"
	names = register{owners: map[string]string{}, running: map[string]*run{}}
	t.Cleanup(func() { workspace, folder = was, inside })
	for _, name := range []string{"CI", "SNAP_UPDATE"} {
		t.Setenv(name, "")
	}
	t.Setenv("SNAP_MODE", mode)
	return filepath.Join(workspace, "p", "snapshots")
}

func read(t *testing.T, parts ...string) string {
	t.Helper()
	text, err := os.ReadFile(filepath.Join(parts...))
	if err != nil {
		t.Fatal(err)
	}
	return string(text)
}

func wants(t *testing.T, told []string, wanted ...string) {
	t.Helper()
	if len(told) != len(wanted) {
		t.Fatalf("told %d times, but wanted %d: %q", len(told), len(wanted), told)
	}
	for at, words := range wanted {
		if !strings.Contains(told[at], words) {
			t.Errorf("%q, but wanted %q", told[at], words)
		}
	}
}

func TestFirstRunApprovalChange(t *testing.T) {
	shots := scratch(t, "new")
	one := &fake{name: "TestOrder/first"}
	value := map[string]any{"id": 1, "lines": "a\nb\n", "paid": false}
	match := func(value any) []string {
		one.told = nil
		Match(one, value)
		one.end()
		return one.told
	}
	wants(t, match(value), "pending "+filepath.Join(shots, "snap_test__TestOrder__first.snap")+": no value is stored yet")
	t.Setenv("SNAP_MODE", "inplace")
	wants(t, match(value))
	body := "id: 1\nlines: |\n  a\n  b\n\npaid: false\n"
	stored := "---\nsource: p/snap_test.go\nexpression: TestOrder/first\n---\n" + body
	if got := read(t, shots, "snap_test__TestOrder__first.snap"); got != stored {
		t.Errorf("%q", got)
	}
	t.Setenv("SNAP_MODE", "no")
	wants(t, match(value))
	value["lines"] = "a\nc\n"
	wants(t, match(value), "the value changed; SNAP_UPDATE=1 approves it\n--- stored\n+++ new\n@@ -1,6 +1,6 @@\n id: 1\n lines: |\n   a\n-  b\n+  c\n")
	if got := read(t, shots, "snap_test__TestOrder__first.snap"); got != stored {
		t.Errorf("%q", got)
	}
	os.WriteFile(filepath.Join(shots, "snap_test__TestOrder__first.snap"), []byte("---\nsnapshot_kind: binary\n---\n"+body), 0o600)
	value["lines"] = "a\nb\n"
	wants(t, match(value), "The bodies agree: the header of the file lets no value pass.")
}

func TestNames(t *testing.T) {
	shots := scratch(t, "inplace")
	one, two := &fake{name: "TestOne"}, &fake{name: "TestTwo"}
	for turn := 0; turn < 2; turn++ {
		Match(one, 1)
		Match(one, 2)
		MatchNamed(one, "mine/x", 3)
		Match(one, 4)
		wants(t, one.told)
		one.end()
	}
	for name, value := range map[string]string{"TestOne": "1", "TestOne-2": "2", "mine__x": "3", "TestOne-3": "4"} {
		if got := read(t, shots, "snap_test__"+name+".snap"); !strings.HasSuffix(got, "---\n"+value+"\n") {
			t.Errorf("%s: %q", name, got)
		}
	}
	MatchNamed(two, "mine__x", 5)
	MatchNamed(two, "same", 6)
	MatchNamed(two, "same", 7)
	MatchNamed(two, strings.Repeat("n", 250), 8)
	MatchNamed(two, "a\nb", 9)
	wants(t, two.told, "another value has it in this run, of the test TestOne", "of the test TestTwo", "longer than a file's", "control character")
	if got := read(t, shots, "snap_test__same.snap"); !strings.HasSuffix(got, "---\n6\n") {
		t.Errorf("%q", got)
	}
}

func TestOptions(t *testing.T) {
	shots := scratch(t, "inplace")
	one := &fake{name: "TestOptions"}
	value := struct {
		ID   int64
		Tags []string
		At   time.Time
	}{time.Now().UnixNano(), []string{"y", "x"}, time.Now()}
	Match(one, value, Redact(".ID", "[id]"), Redact(".At", nil), SortAt(".Tags"), SortMaps())
	wants(t, one.told)
	if got := read(t, shots, "snap_test__TestOptions.snap"); !strings.HasSuffix(got, "---\nAt: ~\nID: \"[id]\"\nTags:\n  - x\n  - y\n") {
		t.Errorf("%q", got)
	}
}

func TestWhatIsRefusedFailsAlone(t *testing.T) {
	shots := scratch(t, "inplace")
	one := &fake{name: "TestBad"}
	Match(one, map[string]any{"save": func() {}})
	Match(one, 1, Redact("no selector", 0))
	Match(one, 2, Redact(".a", func() {}))
	os.MkdirAll(filepath.Join(shots, "snap_test__folder.snap"), 0o700)
	MatchNamed(one, "folder", 3)
	Match(one, 4)
	wants(t, one.told, "snapshot TestBad: .save: a value of the type func()", "document 1 is no request (is a selector wrong?)",
		"what is put at .a: a value of the type func()", "file fault at p/snapshots/snap_test__folder.snap")
	if got := read(t, shots, "snap_test__TestBad-4.snap"); !strings.HasSuffix(got, "---\n4\n") {
		t.Errorf("%q", got)
	}
}

func TestARefusalHasTheWordsOfTheProgramBeside(t *testing.T) {
	scratch(t, "inplace")
	program := os.Getenv("SNAP")
	if program == "" {
		program = "snap"
	}
	beside := t.TempDir()
	// In its place stands a script, which is handed the same stream and tells of each document.
	for name, text := range map[string]string{
		"snap":         "exec '" + program + "' \"$@\"",
		"snap-explain": "[ \"$*\" = 'stream . --literal' ] && awk '/^---/ { print \"document \" ++n \", line 2: why\" }'; exit 1",
	} {
		if err := os.WriteFile(filepath.Join(beside, name), []byte("#!/bin/sh\n"+text+"\n"), 0o700); err != nil {
			t.Fatal(err)
		}
	}
	t.Setenv("SNAP", filepath.Join(beside, "snap"))
	one := &fake{name: "TestWhy"}
	Match(one, 1, Redact("no selector", 0))
	wants(t, one.told, "snap: document 1 is no request\ndocument 1, line 2: why")
}

func TestMode(t *testing.T) {
	rows := []struct{ mode, update, ci, wanted string }{
		{"", "", "", "new"}, {"", "", "true", "no"}, {"", "1", "true", "inplace"}, {"new", "1", "true", "new"},
		{"no", "1", "", "no"}, {"", "0", "", "new"}, {"yes", "", "", ""}, {"", "", "False", "new"}, {"", "", "0", "new"},
	}
	for _, row := range rows {
		environment := map[string]string{"SNAP_MODE": row.mode, "SNAP_UPDATE": row.update, "CI": row.ci}
		mode, err := modeOf(func(name string) string { return environment[name] })
		if mode != row.wanted || (err == nil) != (row.wanted != "") {
			t.Errorf("%v: %s, %v", row, mode, err)
		}
	}
}

func TestProgramThatIsNotThere(t *testing.T) {
	scratch(t, "no")
	t.Setenv("SNAP", "/nowhere/snap")
	one := &fake{name: "TestGone"}
	Match(one, 1)
	wants(t, one.told, "/nowhere/snap is not there: put snap on the path, or name it in SNAP")
}

// Go keeps the result of a test that passed: here it must see that the snapshot changed, and that it was taken away.
func TestGoSeesAChangedSnapshot(t *testing.T) {
	top := t.TempDir()
	source, err := os.ReadFile("snap.go")
	if err != nil {
		t.Fatal(err)
	}
	write := func(name, text string) {
		path := filepath.Join(top, name)
		// Go keeps no result where a file that the test looked at is younger than two seconds.
		old := time.Now().Add(-time.Hour)
		if os.MkdirAll(filepath.Dir(path), 0o700) != nil || os.WriteFile(path, []byte(text), 0o600) != nil || os.Chtimes(path, old, old) != nil {
			t.Fatal(path)
		}
	}
	write("go.mod", "module example.com/shop\n\ngo 1.19\n")
	write("snap/snap.go", string(source))
	write("shop_test.go", `package shop

import (
	"testing"

	"example.com/shop/snap"
)

func TestOrder(t *testing.T) { snap.Match(t, 1) }
`)
	try := func(mode, wanted string) {
		t.Helper()
		command := exec.Command("go", "test", ".")
		command.Dir = top
		command.Env = append(os.Environ(), "SNAP_MODE="+mode, "GOFLAGS=", "GOWORK=off")
		if out, _ := command.CombinedOutput(); !strings.Contains(string(out), wanted) {
			t.Errorf("%s, but wanted %s", out, wanted)
		}
	}
	write("snapshots/shop_test__TestOrder.snap", "---\nsource: shop_test.go\n---\n1\n")
	try("no", "ok")
	try("no", "(cached)")
	write("snapshots/shop_test__TestOrder.snap", "---\nsource: shop_test.go\n---\n22\n")
	try("no", "the value changed")
	write("snapshots/shop_test__TestOrder.snap", "---\nsource: shop_test.go\n---\n1\n")
	try("no", "ok")
	if err := os.Remove(filepath.Join(top, "snapshots", "shop_test__TestOrder.snap")); err != nil {
		t.Fatal(err)
	}
	try("no", "no value is stored yet")
}
