module hopslintel.example/hopslintel/spiffe

// What go-spiffe needs.
go 1.22.11

require (
	github.com/spiffe/go-spiffe/v2 v2.5.0
	hopslintel.example/hopslintel v1.1.0
)

replace hopslintel.example/hopslintel => ../
