//go:build race

package simulator

const seedsOfCI = 1000 // each takes ten times as long
