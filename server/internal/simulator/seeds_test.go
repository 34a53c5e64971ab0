//go:build !race

package simulator

const seedsOfCI = 20_000
