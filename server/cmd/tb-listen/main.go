// Tb-listen lets many clients use one ledger over sockets: docs/use/LISTENER.md.
package main

import (
	"os"

	"telovamish.org/server/internal/serve"
)

func main() { os.Exit(serve.Listen(os.Args[1:])) }
