// overlay OUT FOLDER.. writes copies of the Go files of packages into OUT, with a pause before each statement, and OUT/overlay.json for
// `go build -overlay`. The sources stay as they are. docs/races.md shows how it is run.
//
// The copies pause under `pst jitter` alone: PST_JITTER_PAUSES has the longest pauses in microseconds, as 5,50,300, by turns, and PST_JITTER_SEED chooses
// the pauses, with PST_WORKER.
package main

import (
	"encoding/json"
	"fmt"
	"go/ast"
	"go/parser"
	"go/token"
	"log"
	"os"
	"path/filepath"
	"sort"
	"strings"
)

// The file that is added to each package. A short pause spins, since a sleep takes longer than it should.
const pauses = `
import ("os"; "strconv"; "strings"; "sync/atomic"; "time")
var pstLongest = pstSettings()
var pstDraws, pstTurns uint64
func pstSettings() (longest []uint64) {
	for _, name := range []string{"PST_JITTER_SEED", "PST_WORKER"} {
		number, _ := strconv.ParseUint(os.Getenv(name), 10, 64)
		pstDraws = pstDraws * 16 + number
	}
	pstDraws = pstMixed(pstDraws)
	for _, word := range strings.Split(os.Getenv("PST_JITTER_PAUSES"), ",") {
		if number, _ := strconv.ParseUint(word, 10, 32); number > 0 {
			longest = append(longest, number * 1000)
		}
	}
	return longest
}
func pstMixed(word uint64) uint64 {
	word = (word ^ word >> 30) * 0xbf58476d1ce4e5b9
	word = (word ^ word >> 27) * 0x94d049bb133111eb
	return word ^ word >> 31
}
func pstPause() {
	if len(pstLongest) == 0 {
		return
	}
	word := pstMixed(atomic.AddUint64(&pstDraws, 0x9e3779b97f4a7c15))
	if word % 4 != 0 {
		return
	}
	pause := time.Duration(word / 4 % pstLongest[atomic.AddUint64(&pstTurns, 1) % uint64(len(pstLongest))])
	if pause > 50 * time.Microsecond {
		time.Sleep(pause)
		return
	}
	for begun := time.Now(); time.Since(begun) < pause; {
	}
}
`

// Returns the places of the statements in a tree, from the last to the first.
func statements(set *token.FileSet, tree *ast.File) (places []int) {
	ast.Inspect(tree, func(node ast.Node) bool {
		var list []ast.Stmt
		switch part := node.(type) {
		case *ast.BlockStmt:
			list = part.List
		case *ast.CaseClause:
			list = part.Body
		case *ast.CommClause:
			list = part.Body
		}
		for _, statement := range list {
			switch statement.(type) {
			case *ast.CaseClause, *ast.CommClause: // parts of a switch or select
			default:
				places = append(places, set.Position(statement.Pos()).Offset)
			}
		}
		return true
	})
	sort.Sort(sort.Reverse(sort.IntSlice(places)))
	return places
}

// Returns the text of a file with pauses, on the same lines, and the name of its package.
func withPauses(file string) (string, string) {
	source, err := os.ReadFile(file)
	check(err)
	set := token.NewFileSet()
	tree, err := parser.ParseFile(set, file, source, 0)
	check(err)
	text := string(source)
	for _, place := range statements(set, tree) {
		text = text[:place] + "pstPause(); " + text[place:]
	}
	return text, tree.Name.Name
}

func check(err error) {
	if err != nil {
		log.Fatal(err)
	}
}

func main() {
	log.SetFlags(0)
	if len(os.Args) < 3 {
		log.Fatal("usage: overlay OUT FOLDER..")
	}
	out, err := filepath.Abs(os.Args[1])
	check(err)
	check(os.MkdirAll(out, 0o777))
	replaced := map[string]string{}
	put := func(name, text string) {
		replaced[name] = filepath.Join(out, fmt.Sprintf("%d-%s", len(replaced), filepath.Base(name)))
		check(os.WriteFile(replaced[name], []byte(text), 0o666))
	}
	for _, folder := range os.Args[2:] {
		folder, err := filepath.Abs(folder)
		check(err)
		files, err := filepath.Glob(filepath.Join(folder, "*.go"))
		check(err)
		name := ""
		for _, file := range files {
			if strings.HasSuffix(file, "_test.go") || filepath.Base(file) == "pst.go" { // pst.go answers calls, and is no part of a system
				continue
			}
			var text string
			text, name = withPauses(file)
			put(file, text)
		}
		if name == "" {
			log.Fatalf("%s has no Go files", folder)
		}
		put(filepath.Join(folder, "pst_pauses.go"), "package "+name+"\n"+pauses)
	}
	text, err := json.Marshal(map[string]any{"Replace": replaced})
	check(err)
	check(os.WriteFile(filepath.Join(out, "overlay.json"), text, 0o666))
}
