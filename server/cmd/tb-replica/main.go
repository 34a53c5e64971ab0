// Tb-replica serves a ledger from several machines, over an agreed log: docs/use/CLUSTER.md.
package main

import (
	"os"

	_ "telovamish.org/server/internal/agreed/etcd"
	_ "telovamish.org/server/internal/agreed/postgresql"
	"telovamish.org/server/internal/manage"
	"telovamish.org/server/internal/replicated"
	"telovamish.org/server/internal/serve"
)

func main() {
	hasOutput := serve.FillStandardFiles()
	if len(os.Args) > 1 && manage.Has(os.Args[1]) {
		os.Exit(manage.Main(os.Args[1], os.Args[2:], hasOutput))
	}
	os.Exit(replicated.Main(os.Args[1:], hasOutput))
}
