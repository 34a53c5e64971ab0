package tbclient

import (
	"fmt"
	"os"
	"sort"
	"strconv"
	"strings"
	"syscall"
)

// ownerOf is the process that has a file locked, or 0 if the system does not say.
func ownerOf(path string) int {
	var found syscall.Stat_t
	locks, err := os.ReadFile("/proc/locks")
	if err != nil || syscall.Stat(path, &found) != nil {
		return 0
	}
	inode := fmt.Sprintf(":%d", found.Ino)
	place := fmt.Sprintf("%02x:%02x%s", found.Dev>>8&0xfff, found.Dev&0xff|found.Dev>>12&^0xff, inode)
	var held [][]string // as 1: FLOCK ADVISORY WRITE 4711 fe:00:10952783 0 EOF
	for _, line := range strings.Split(string(locks), "\n") {
		words := strings.Fields(line)
		if len(words) > 5 && words[1] == "FLOCK" && strings.HasSuffix(words[5], inode) {
			held = append(held, words)
		}
	}
	// some file systems have another device there
	sort.SliceStable(held, func(i, j int) bool { return held[i][5] == place && held[j][5] != place })
	if len(held) == 0 {
		return 0
	}
	owner, _ := strconv.Atoi(held[0][4])
	return owner
}
