// No host serves this module. A program names the folder of its source instead:
//
//	go mod edit -require palkhuveg.invalid/jnl@v0.0.0
//	go mod edit -replace palkhuveg.invalid/jnl=DIRECTORY/clients/go
module palkhuveg.invalid/jnl

go 1.19
