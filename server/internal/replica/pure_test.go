package replica

import (
	"go/ast"
	"go/parser"
	"go/token"
	"io/fs"
	"strings"
	"testing"
)

// pure are the packages that the core may use: none of them has input or output, or a lock. Of time it
// has only names of durations.
var pure = map[string]bool{
	"bytes": true, "encoding/json": true, "fmt": true, "math": true, "sort": true, "strconv": true, "strings": true,
	"time": true, "telovamish.org/server/internal/entries": true, "telovamish.org/server/internal/faults": true,
	"telovamish.org/server/internal/frames": true, "telovamish.org/server/internal/moments": true,
	"telovamish.org/server/internal/report": true,
}

var readsClock = map[string]bool{"Wall": true, "Running": true} // of moments

var ofTime = map[string]bool{"Duration": true, "Second": true, "Millisecond": true, "Nanosecond": true}

// TestTheCoreIsAStateMachine finds no clock, goroutine, channel or lock in it.
func TestTheCoreIsAStateMachine(t *testing.T) {
	isSource := func(it fs.FileInfo) bool { return !strings.HasSuffix(it.Name(), "_test.go") }
	set := token.NewFileSet()
	found, err := parser.ParseDir(set, ".", isSource, 0)
	if err != nil || len(found) == 0 {
		t.Fatal(found, err)
	}
	for _, it := range found {
		ast.Inspect(it, func(node ast.Node) bool {
			what := ""
			switch node := node.(type) {
			case *ast.ImportSpec:
				if path := strings.Trim(node.Path.Value, `"`); !pure[path] {
					what = "imports " + path
				}
			case *ast.GoStmt, *ast.ChanType, *ast.SelectStmt:
				what = "has a goroutine or a channel"
			case *ast.SelectorExpr:
				of, ok := node.X.(*ast.Ident)
				isClock := ok && (of.Name == "time" && !ofTime[node.Sel.Name] || of.Name == "moments" && readsClock[node.Sel.Name])
				if isClock {
					what = "uses " + of.Name + "." + node.Sel.Name
				}
			}
			if what != "" {
				t.Errorf("%s %s", set.Position(node.Pos()), what)
			}
			return true
		})
	}
}
