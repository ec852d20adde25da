// Runs a file of Starlark in starlark-go, and prints what it calls `t`.
package main

import (
	"fmt"
	"os"

	"go.starlark.net/resolve"
	"go.starlark.net/starlark"
)

func main() {
	resolve.AllowLambda = true
	resolve.AllowNestedDef = true
	resolve.AllowGlobalReassign = true
	globals, err := starlark.ExecFile(&starlark.Thread{Name: "bench"}, os.Args[1], nil, nil)
	if err != nil {
		fmt.Fprintln(os.Stderr, err)
		os.Exit(1)
	}
	fmt.Println("t:", globals["t"])
}
