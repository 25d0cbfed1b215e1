module hopslintel.example/hopslintel

// What Debian 12 has.
go 1.19
