// Package snap judges the values of tests by the program snap, against what was approved before: see README.md.
package snap

import (
	"bytes"
	"encoding"
	"encoding/base64"
	"encoding/json"
	"errors"
	"fmt"
	"math"
	"math/big"
	"os"
	"os/exec"
	"path/filepath"
	"reflect"
	"runtime"
	"sort"
	"strconv"
	"strings"
	"sync"
	"time"
	"unicode/utf8"
)

// T is what a test hands over: *testing.T, or *testing.B.
type T interface {
	Helper()
	Name() string
	Errorf(format string, words ...any)
	Cleanup(func())
}

// Option changes how one value is judged.
type Option struct {
	sortMaps bool
	at       string
	put      any
	sortAt   bool
}

// Redact puts tree at each place that the selector hits.
func Redact(selector string, tree any) Option { return Option{at: selector, put: tree} }

// SortAt sorts the list, or the map, at each place that the selector hits.
func SortAt(selector string) Option { return Option{at: selector, sortAt: true} }

// SortMaps sorts all maps and structs of the value by their keys.
func SortMaps() Option { return Option{sortMaps: true} }

// Match judges value as a snapshot named by the test: the first by the test's name, further ones with -2, -3 and so on.
func Match(t T, value any, options ...Option) {
	t.Helper()
	judge(t, t.Name(), true, value, options)
}

// MatchNamed judges value as the snapshot with this name. A name is taken once in a package.
func MatchNamed(t T, name string, value any, options ...Option) {
	t.Helper()
	judge(t, name, false, value, options)
}

func judge(t T, name string, isOwn bool, value any, options []Option) {
	t.Helper()
	_, file, line, _ := runtime.Caller(2)
	one := request{file: filepath.Base(file), line: line, name: name, test: t.Name()}
	err := names.take(t, &one, isOwn)
	if err == nil {
		one.rest, err = restOf(value, options)
	}
	if err == nil {
		err = one.run()
	}
	if err != nil {
		t.Errorf("snapshot %s: %v", one.name, err)
	}
}

// request is one value on its way to the program; rest is its JSON from the key "value" on.
type request struct {
	file, name, test, rest string
	line                   int
}

// module is the file's name without its end.
func (r request) module() string { return strings.TrimSuffix(r.file, ".go") }

// snapshot is the name of the snapshot's file.
func (r request) snapshot() string {
	return r.module() + "__" + strings.NewReplacer("/", "__", `\`, "__").Replace(r.name) + ".snap"
}

func (r request) document(folder string) string {
	return fmt.Sprintf("---\n{\"module\":%s,\"file\":%s,\"line\":%d,\"name\":%s,\"expr\":%s,%s}\n",
		quote(r.module()), quote(filepath.ToSlash(filepath.Join(folder, r.file))), r.line, quote(r.name), quote(r.test), r.rest)
}

// run judges the value. The error tells the verdict, the path and a unified diff, or why there is no verdict.
func (r request) run() error {
	mode, err := modeOf(os.Getenv)
	if err != nil {
		return err
	}
	path := filepath.Join(workspace, folder, "snapshots", r.snapshot())
	// The program reads the file, so Go wouldn't know of it: a look runs a test that passed again where its snapshot changed.
	_, _ = os.Stat(path)
	out, err := runProgram(mode, workspace, r.document(folder))
	if err != nil {
		return err
	}
	verdict, _, _ := strings.Cut(out, " ")
	if verdict == "passed" || verdict == "updated" {
		return nil
	}
	what := "the value changed"
	stored, err := os.ReadFile(path)
	if errors.Is(err, os.ErrNotExist) {
		what = "no value is stored yet"
	} else if err != nil {
		return err
	}
	diff, err := r.diff(bodyOf(string(stored)))
	if err != nil {
		return err
	}
	return fmt.Errorf("%s %s: %s; SNAP_UPDATE=1 approves it\n%s", verdict, path, what, diff)
}

// diff compares the stored body, by diff -u, with the text that the value has in a snapshot of a scratch folder.
func (r request) diff(stored string) (string, error) {
	scratch, err := os.MkdirTemp("", "snap-go-")
	if err != nil {
		return "", err
	}
	defer os.RemoveAll(scratch)
	r.file, r.name = "f", "n"
	if _, err := runProgram("new", scratch, r.document(".")); err != nil {
		return "", err
	}
	text, err := os.ReadFile(filepath.Join(scratch, "snapshots", r.snapshot()+".new"))
	if err != nil {
		return "", err
	}
	now := bodyOf(string(text))
	if stored == now {
		return "The bodies agree: the header of the file lets no value pass.", nil
	}
	path := filepath.Join(scratch, "stored")
	if err := os.WriteFile(path, []byte(stored), 0o600); err != nil {
		return "", err
	}
	compare := exec.Command("diff", "-u", "--label", "stored", "--label", "new", path, "-")
	compare.Stdin = strings.NewReader(now)
	out, _ := compare.Output() // its status 1 says that they differ
	if len(out) == 0 {
		return "diff is not there to compare them: stored:\n" + stored + "new:\n" + now, nil
	}
	return string(out), nil
}

// bodyOf is what stands below the header, without what doesn't count: white space at the end, CR before LF.
func bodyOf(text string) string {
	lines := strings.Split(strings.ReplaceAll(text, "\r\n", "\n"), "\n")
	end := ""
	if strings.TrimSpace(lines[0]) == "---" {
		end = "---"
	}
	for at := 1; at < len(lines); at++ {
		if strings.TrimRight(lines[at], " \t") == end {
			return strings.TrimRight(strings.Join(lines[at+1:], "\n"), " \t\n") + "\n"
		}
	}
	return ""
}

// modeOf is SNAP_MODE, else inplace where SNAP_UPDATE is 1, else no where CI says yes, else new.
func modeOf(environment func(string) string) (string, error) {
	switch mode := environment("SNAP_MODE"); mode {
	case "":
	case "inplace", "new", "no":
		return mode, nil
	default:
		return "", fmt.Errorf("SNAP_MODE is %s, and none of inplace, new, no", mode)
	}
	if environment("SNAP_UPDATE") == "1" {
		return "inplace", nil
	}
	if saysYes(environment("CI")) {
		return "no", nil
	}
	return "new", nil
}

// saysYes is whether a variable is set to anything but nothing, 0, no and false, in any case.
func saysYes(text string) bool {
	switch strings.ToLower(text) {
	case "", "0", "no", "false":
		return false
	}
	return true
}

// runProgram judges one document and returns the program's line. Status 1 is a verdict and no error.
func runProgram(mode, workspace, document string) (string, error) {
	program := os.Getenv("SNAP")
	if program == "" {
		program = "snap"
	}
	command := exec.Command(program, "run", mode, ".", "--literal")
	command.Dir = workspace
	command.Stdin = strings.NewReader(document)
	var out, words bytes.Buffer
	command.Stdout, command.Stderr = &out, &words
	err := command.Run()
	var ended *exec.ExitError
	switch {
	case errors.Is(err, exec.ErrNotFound) || errors.Is(err, os.ErrNotExist):
		return "", fmt.Errorf("%s is not there: put snap on the path, or name it in SNAP", program)
	case err != nil && out.Len() == 0:
		said, why := strings.TrimSpace(words.String()), reasons(command.Path, workspace, document)
		if !errors.As(err, &ended) || ended.ExitCode() != 3 {
			return "", fmt.Errorf("%v: %s%s", err, said, why)
		}
		if why == "" {
			why = " (is a selector wrong?)"
		}
		return "", fmt.Errorf("%s%s", said, why)
	}
	return out.String(), nil
}

// reasons is what snap-explain says of the document, each on a line of its own; "" where it isn't beside the program.
func reasons(program, workspace, document string) string {
	command := exec.Command(filepath.Join(filepath.Dir(program), "snap-explain"), "stream", ".", "--literal")
	command.Dir = workspace
	command.Stdin = strings.NewReader(document)
	command.Env = append(os.Environ(), "SNAP_AS_BUILT=1")
	out, _ := command.Output() // its status 1 says that it found something
	if len(out) == 0 {
		return ""
	}
	return "\n" + strings.TrimSuffix(string(out), "\n")
}

// workspace is the nearest folder with a go.mod above the package's, which tests run in; folder leads from there to it.
var workspace, folder = place()

func place() (string, string) {
	here, err := os.Getwd()
	if err != nil {
		panic(err)
	}
	for above := here; ; above = filepath.Dir(above) {
		if _, err := os.Stat(filepath.Join(above, "go.mod")); err == nil {
			folder, _ := filepath.Rel(above, here)
			return above, folder
		}
		if above == filepath.Dir(above) {
			return here, "."
		}
	}
}

// register keeps two values from one snapshot. What a test took is free for the same test when it has ended (-count=2).
type register struct {
	sync.Mutex
	owners  map[string]string
	running map[string]*run
}

// run is what a test that is running took: how many names of its own, and which snapshots.
type run struct {
	count int
	taken map[string]bool
}

var names = register{owners: map[string]string{}, running: map[string]*run{}}

// take takes the snapshot of a request, with the test's next name where that is to be its own.
func (r *register) take(t T, one *request, isOwn bool) error {
	r.Lock()
	defer r.Unlock()
	now := r.running[one.test]
	if now == nil {
		now = &run{taken: map[string]bool{}}
		r.running[one.test] = now
		t.Cleanup(func() {
			r.Lock()
			defer r.Unlock()
			delete(r.running, one.test)
		})
	}
	if isOwn {
		now.count++
		if now.count > 1 {
			one.name += fmt.Sprintf("-%d", now.count)
		}
	}
	snapshot := one.snapshot()
	owner, isOwned := r.owners[snapshot]
	switch {
	case one.name == "" || !utf8.ValidString(one.name) || strings.IndexFunc(one.name, isControl) >= 0:
		return errors.New("the name: empty, no UTF-8, or with a control character")
	case len(snapshot)+len(".new") > 255:
		return errors.New("the name: longer than a file's; give a shorter one by MatchNamed")
	case isOwned && owner != one.test || now.taken[snapshot]:
		return fmt.Errorf("the name: another value has it in this run, of the test %s", owner)
	}
	r.owners[snapshot], now.taken[snapshot] = one.test, true
	return nil
}

func isControl(character rune) bool { return character < ' ' || character >= 0x7f && character < 0xa0 }

// restOf writes the part of a request that its value and the options make.
func restOf(value any, options []Option) (string, error) {
	tree, err := toJSON(value, "")
	if err != nil {
		return "", err
	}
	sorted, redactions := false, []string{}
	for _, option := range options {
		if option.sortMaps {
			sorted = true
			continue
		}
		what := `"sort":true`
		if !utf8.ValidString(option.at) {
			return "", errors.New("a selector that is no UTF-8")
		}
		if !option.sortAt {
			put, err := toJSON(option.put, "what is put at "+option.at)
			if err != nil {
				return "", err
			}
			what = `"put":` + put
		}
		redactions = append(redactions, fmt.Sprintf(`{"at":%s,%s}`, quote(option.at), what))
	}
	return fmt.Sprintf(`"value":%s,"redactions":[%s],"sort":%t`, tree, strings.Join(redactions, ","), sorted), nil
}

// deepest is how many lists, maps and structs may stand inside one another, and mostPointers how many pointers on the
// way; longestKey is in characters, with quotes and escapes: a longer one is no key to the program's reader.
const deepest, mostPointers, longestKey = 200, 1000, 1024

var smallest, largest = new(big.Int).Neg(power(127)), new(big.Int).Sub(power(128), big.NewInt(1))

func power(bits uint) *big.Int { return new(big.Int).Lsh(big.NewInt(1), bits) }

// toJSON writes a value by the table in README.md. The error begins with the place of what can't be handed over.
func toJSON(value any, place string) (string, error) {
	var out strings.Builder
	err := writer{out: &out}.write(reflect.ValueOf(value), place)
	return out.String(), err
}

type writer struct {
	out             *strings.Builder
	depth, pointers int
}

func refuse(place, why string) error {
	if place == "" {
		place = "the value"
	}
	return fmt.Errorf("%s: %s", place, why)
}

func (w writer) write(v reflect.Value, place string) error {
	if !v.IsValid() || isNil(v) {
		w.out.WriteString("null")
		return nil
	}
	if done, err := w.writeKnown(v, place); done || err != nil {
		return err
	}
	switch v.Kind() {
	case reflect.Pointer, reflect.Interface:
		w.pointers++
	case reflect.Slice, reflect.Array, reflect.Map, reflect.Struct:
		w.depth++
	}
	if w.depth > deepest || w.pointers > mostPointers {
		return refuse(fmt.Sprintf("%.40s..", place), "nested more than 200 deep: does it hold itself?")
	}
	switch v.Kind() {
	case reflect.Bool:
		fmt.Fprint(w.out, v.Bool())
	case reflect.Int, reflect.Int8, reflect.Int16, reflect.Int32, reflect.Int64:
		fmt.Fprint(w.out, v.Int())
	case reflect.Uint, reflect.Uint8, reflect.Uint16, reflect.Uint32, reflect.Uint64:
		fmt.Fprint(w.out, v.Uint())
	case reflect.Float32, reflect.Float64:
		w.out.WriteString(quote(floatText(v.Float(), v.Type().Bits())))
	case reflect.String:
		return w.text(v.String(), place)
	case reflect.Pointer, reflect.Interface:
		return w.write(v.Elem(), place)
	case reflect.Slice, reflect.Array:
		return w.list(v, place)
	case reflect.Map:
		return w.dict(v, place)
	case reflect.Struct:
		return w.fields(v, place)
	default:
		return refuse(place, fmt.Sprintf("a value of the type %s can't be handed over", v.Type()))
	}
	return nil
}

func isNil(v reflect.Value) bool {
	switch v.Kind() {
	case reflect.Pointer, reflect.Interface, reflect.Map, reflect.Slice:
		return v.IsNil()
	}
	return false
}

// writeKnown writes the types that have a text of their own, and says whether v is one of them.
func (w writer) writeKnown(v reflect.Value, place string) (bool, error) {
	if !v.CanInterface() || v.Kind() == reflect.Interface {
		return false, nil
	}
	switch known := v.Interface().(type) {
	case time.Time:
		return true, w.text(known.Format(time.RFC3339Nano), place)
	case big.Int:
		return true, w.whole(&known, place)
	case *big.Int:
		return true, w.whole(known, place)
	case encoding.TextMarshaler:
		text, err := known.MarshalText()
		if err != nil {
			return true, refuse(place, err.Error())
		}
		return true, w.text(string(text), place)
	case fmt.Stringer:
		if v.CanInt() || v.CanUint() {
			return true, w.text(known.String(), place)
		}
	}
	return false, nil
}

func (w writer) whole(number *big.Int, place string) error {
	if number.Cmp(smallest) < 0 || number.Cmp(largest) > 0 {
		return refuse(place, "a whole number of more than 128 bits: hand it over as a text")
	}
	w.out.WriteString(number.String())
	return nil
}

func floatText(number float64, bits int) string {
	switch {
	case math.IsNaN(number):
		return "nan"
	case math.IsInf(number, 0):
		return strings.ToLower(strings.TrimPrefix(fmt.Sprint(number), "+"))
	}
	return strconv.FormatFloat(number, 'g', -1, bits)
}

func (w writer) text(text, place string) error {
	if !utf8.ValidString(text) {
		return refuse(place, "a text that is no UTF-8: hand it over as []byte")
	}
	w.out.WriteString(quote(text))
	return nil
}

// quote writes a text that is UTF-8 as JSON.
func quote(text string) string {
	var out bytes.Buffer
	encoder := json.NewEncoder(&out)
	encoder.SetEscapeHTML(false)
	_ = encoder.Encode(text) // no text fails, and no write to memory
	return strings.TrimSuffix(out.String(), "\n")
}

func (w writer) list(v reflect.Value, place string) error {
	if v.Type().Elem().Kind() == reflect.Uint8 && v.Type().Elem().PkgPath() == "" {
		content := make([]byte, v.Len())
		reflect.Copy(reflect.ValueOf(content), v)
		w.out.WriteString(quote(base64.StdEncoding.EncodeToString(content)))
		return nil
	}
	w.out.WriteByte('[')
	for at := 0; at < v.Len(); at++ {
		if at > 0 {
			w.out.WriteByte(',')
		}
		if err := w.write(v.Index(at), fmt.Sprintf("%s[%d]", place, at)); err != nil {
			return err
		}
	}
	w.out.WriteByte(']')
	return nil
}

// pair is a key and its value on their way into a dict.
type pair struct {
	key   string
	value reflect.Value
}

// dict writes a map, sorted by the texts of its keys. A key that is no text stands as its JSON text.
func (w writer) dict(v reflect.Value, place string) error {
	pairs := []pair{}
	for each := v.MapRange(); each.Next(); {
		var out strings.Builder
		if err := (writer{&out, w.depth, w.pointers}).write(each.Key(), place+".$key"); err != nil {
			return err
		}
		text := out.String()
		if strings.HasPrefix(text, `"`) {
			_ = json.Unmarshal([]byte(text), &text) // written by quote
		}
		pairs = append(pairs, pair{text, each.Value()})
	}
	sort.Slice(pairs, func(i, j int) bool { return pairs[i].key < pairs[j].key })
	return w.pairs(pairs, place)
}

// fields writes the exported and the embedded fields of a struct in order, under the names of their json tags.
func (w writer) fields(v reflect.Value, place string) error {
	pairs := []pair{}
	for at := 0; at < v.NumField(); at++ {
		field := v.Type().Field(at)
		name, _, _ := strings.Cut(field.Tag.Get("json"), ",")
		if field.Tag.Get("json") == "-" || !field.IsExported() && !isEmbeddedStruct(field) {
			continue
		}
		if name == "" {
			name = field.Name
		}
		pairs = append(pairs, pair{name, v.Field(at)})
	}
	if len(pairs) == 0 && v.NumField() > 0 {
		return refuse(place, fmt.Sprintf("a value of the type %s, which has no field that is exported", v.Type()))
	}
	return w.pairs(pairs, place)
}

func isEmbeddedStruct(field reflect.StructField) bool {
	kind := field.Type
	if kind.Kind() == reflect.Pointer {
		kind = kind.Elem()
	}
	return field.Anonymous && kind.Kind() == reflect.Struct
}

func (w writer) pairs(pairs []pair, place string) error {
	seen := map[string]bool{}
	w.out.WriteByte('{')
	for at, one := range pairs {
		here := placeOf(one.key, place)
		name := quote(one.key)
		switch {
		case seen[one.key]:
			return refuse(here, "two keys with one text")
		case utf8.RuneCountInString(name) > longestKey:
			return refuse(here, "a key of more than 1024 characters")
		}
		seen[one.key] = true
		if at > 0 {
			w.out.WriteByte(',')
		}
		w.out.WriteString(name + ":")
		if err := w.write(one.value, here); err != nil {
			return err
		}
	}
	w.out.WriteByte('}')
	return nil
}

func placeOf(key, place string) string {
	for at, character := range key {
		isLetter := character == '_' || character == '$' || character|0x20 >= 'a' && character|0x20 <= 'z'
		if !isLetter && (at == 0 || character < '0' || character > '9') {
			return fmt.Sprintf("%s[%s]", place, quote(key))
		}
	}
	return place + "." + key
}
