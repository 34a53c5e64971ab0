package entries

import (
	"bytes"
	"encoding/hex"
	"errors"
	"fmt"
	"reflect"
	"strings"
	"testing"

	"telovamish.org/server/internal/frames"
)

const (
	writer = "000102030405060708090a0b0c0d0e0f"
	zeros  = "0000000000000000000000000000000000000000000000000000000000000000"
	// a register of client 7 at moment 5, and its lookup of account 1 at moment 6
	register = "0500000000000000" + "07000000000000000000000000000000" + "0000000000000000" + "00000000" +
		"02000000" + "00000000" + "0000000000000000" + "00000000"
	lookup = "0600000000000000" + "07000000000000000000000000000000" + "0100000000000000" + "01000000" +
		"83000000" + "10000000" + "0000000000000000" + "00000000" +
		"01000000000000000000000000000000"
)

// Entries that the module in Python made, in whose place this one is.
var (
	emptyEntry = data("5442454e54525932" + // TBENTRY2
		"c1498d70c6084941a0fe170330477261dae6b9e8fb60588440c9bb0d59ce174a" +
		writer + "0100000000000000" + "0000000000000000" + zeros + "0000000000000000" + zeros)
	twoEntry = data("5442454e54525932" +
		"4de86b956b8a12f33da46bc627cbb77ae9d26993559991be67b30d9a288a7e54" +
		writer + "0200000000000000" +
		"0300000000000000" + strings.Repeat("11", 32) + "0200000000000000" + strings.Repeat("22", 32) +
		register + lookup)
	longEntry = data("5442454e5452595a" + // TBENTRYZ
		"8feda95f767099d9ad8be298d84861261b43bbbb5b08655fef612aa578fef37d" +
		writer + "0300000000000000" +
		"0400000000000000" + strings.Repeat("33", 32) + "0400000000000000" + strings.Repeat("44", 32) +
		"edd4310ac0201044d1244db0cd9573318f164517a6cb059e20a36ef7f94e3bd6ba77569cfb708d7cc7ee4f4d56d6bc5e" +
		"dd8b043e93001ff89004f89034fc0f3ef02109f02169e8073ef02109f02169e8073ef02109f02169e8873f1f3e")
)

func data(digits string) []byte {
	found, err := hex.DecodeString(digits)
	if err != nil {
		panic(err)
	}
	return found
}

func filled(value byte) (hash Hash) {
	for at := range hash {
		hash[at] = value
	}
	return hash
}

// longPairs are a lookup of account 1, 300 times in one request, at moment 9.
func longPairs() []byte {
	frame := data("07000000000000000000000000000000" + "0100000000000000" + "02000000" + "83000000" +
		"c0120000" + "0000000000000000" + "00000000")
	id := append([]byte{1}, make([]byte, 15)...)
	return AppendPair(nil, 9, frame, bytes.Repeat(id, 300))
}

func someWriter() (id Writer) {
	for at := range id {
		id[at] = byte(at)
	}
	return id
}

func someEntries() map[string]Entry {
	two, long := Claim{Position: 2, Hash: filled(0x22)}, Claim{Position: 4, Hash: filled(0x44)}
	return map[string]Entry{
		"empty": {Writer: someWriter(), Number: 1, Pairs: []byte{}},
		"two": {Writer: someWriter(), Number: 2, Log: Claim{Position: 3, Hash: filled(0x11)}, Replies: two,
			Pairs: data(register + lookup)},
		"long": {Writer: someWriter(), Number: 3, Log: Claim{Position: 4, Hash: filled(0x33)}, Replies: long,
			Pairs: longPairs()},
	}
}

var someBytes = map[string][]byte{"empty": emptyEntry, "two": twoEntry, "long": longEntry}

func TestEntriesAreRead(t *testing.T) {
	for name, want := range someEntries() {
		t.Run(name, func(t *testing.T) {
			got, err := Parse(someBytes[name])
			if err != nil || !reflect.DeepEqual(got, want) {
				t.Errorf("%.200v, %v; not %.200v", got, err, want)
			}
		})
	}
}

func TestEntriesAreWritten(t *testing.T) {
	for name, entry := range someEntries() {
		t.Run(name, func(t *testing.T) {
			got := entry.Append([]byte("before"))
			if string(got[:6]) != "before" {
				t.Fatalf("%q", got[:6])
			}
			if got = got[6:]; name != "long" && !bytes.Equal(got, someBytes[name]) {
				t.Errorf("%x, not %x", got, someBytes[name])
			}
			again, err := Parse(got)
			if err != nil || !reflect.DeepEqual(again, entry) {
				t.Errorf("%v, %v; not %v", again, err, entry)
			}
		})
	}
}

// changed is an entry with other bytes at a place, and their sum if they get one.
func changed(entry []byte, at int, to string, isSummed bool) []byte {
	found := append([]byte{}, entry...)
	copy(found[at:], to)
	if isSummed {
		sum := sumOf(found)
		copy(found[atSum:], sum[:])
	}
	return found
}

func TestFaultsOfEntries(t *testing.T) {
	tooLong := Entry{Pairs: make([]byte, PairsMax+1)}
	whole := changed(longEntry, 0, "", true)
	for _, row := range []struct {
		name      string
		data      []byte
		want      error
		isChanged bool
	}{
		{"none", nil, ErrNoHead, true},
		{"part of a head", twoEntry[:HeadSize-1], ErrNoHead, true},
		{"another text", []byte("hello, this is not an entry"), ErrNoHead, false},
		{"another magic", changed(twoEntry, 7, "1", true), ErrNoHead, false},
		{"a bit of its writer", changed(twoEntry, atWriter, "\x01", false), ErrSum, true},
		{"a bit of its pairs", changed(twoEntry, HeadSize, "\x04", false), ErrSum, true},
		{"a bit of its sum", changed(twoEntry, atSum, "\x00", false), ErrSum, true},
		{"it is cut", twoEntry[:len(twoEntry)-1], ErrSum, true},
		{"a byte after it", append(append([]byte{}, twoEntry...), 0), ErrSum, true},
		{"plain as deflated", changed(twoEntry, 0, deflated, true), ErrNotDeflated, false},
		{"deflated and cut", changed(longEntry[:len(longEntry)-9], 0, "", true), ErrTooLong, false},
		{"a byte after what was deflated", changed(append(whole, 0), 0, "", true), ErrTooLong, false},
		{"too long", tooLong.Append(nil), ErrTooLong, false},
	} {
		t.Run(row.name, func(t *testing.T) {
			if _, err := Parse(row.data); !errors.Is(err, row.want) {
				t.Errorf("%v, not %v", err, row.want)
			}
			if got := IsChanged(row.data); got != row.isChanged {
				t.Errorf("changed: %v", got)
			}
		})
	}
}

func TestTrustedEntriesNeedNoSum(t *testing.T) {
	if entry, err := ParseTrusted(changed(twoEntry, atSum, "\x00", false)); err != nil || entry.Number != 2 {
		t.Errorf("%v, %v", entry, err)
	}
}

func TestHashes(t *testing.T) {
	one := Hash{}.Next([]byte("abc"))
	for want, got := range map[string]Hash{
		"66687aadf862bd776c8fc18b8e9f8e20089714856ee233b3902a591d0d5f2925": Hash{}.Next(nil),
		"365aa7d8f7f9402c4b9434502b4cc89ddb09fe50d7cd95b493b834c62d5a5370": one,
		"322933d56248be39f4706e9dd57cdd91027bb4d20352898b80e9622c409dcdbf": one.Next(
			bytes.Repeat([]byte("x"), 5000)),
	} {
		if got.String() != want {
			t.Errorf("%v, not %v", got, want)
		}
		if again, err := ParseHash(want); err != nil || again != got {
			t.Errorf("%v, %v", again, err)
		}
	}
	for _, text := range []string{"", "66", strings.Repeat("g", 64), strings.Repeat("0", 66)} {
		if _, err := ParseHash(text); err == nil {
			t.Errorf("%q is a hash", text)
		}
	}
}

func TestNothingIsAllocatedForAReply(t *testing.T) {
	reply, hash := make([]byte, frames.HeaderSize), Hash{}
	if count := testing.AllocsPerRun(100, func() { hash = hash.Next(reply) }); count != 0 {
		t.Errorf("%v allocations", count)
	}
}

func TestPairs(t *testing.T) {
	pairs := data(register + lookup)
	first, at, err := NextPair(pairs, 0)
	if err != nil || first.Moment != 5 || first.Frame.Client() != (frames.Client{Low: 7}) || len(first.Frame) != 48 {
		t.Fatalf("%v, %v", first, err)
	}
	second, end, err := NextPair(pairs, at)
	if err != nil || second.Moment != 6 || second.Frame.Number() != 1 || end != len(pairs) {
		t.Fatalf("%v, %v, %d", second, err, end)
	}
	askers, err := AppendCheckedAskers(nil, pairs)
	want := []frames.Asker{first.Frame.Asker(), second.Frame.Asker()}
	if err != nil || !reflect.DeepEqual(askers, want) {
		t.Errorf("%v, %v", askers, err)
	}
	if moment, ok := FirstMoment(pairs); moment != 5 || !ok {
		t.Errorf("%d, %v", moment, ok)
	}
	if _, ok := FirstMoment(nil); ok {
		t.Error("no pairs have a moment")
	}
}

func TestFaultsOfPairs(t *testing.T) {
	pairs := data(register + lookup)
	late := changedPairs(pairs, 7, 0x40)
	late[0] = 0
	for _, row := range []struct {
		name  string
		pairs []byte
		want  string
	}{
		{"cut in a header", pairs[:55], "its last pair is not whole"},
		{"cut in a body", pairs[:len(pairs)-1], "its last pair is not whole"},
		{"no client", changedPairs(pairs, 8, 0), "a pair of it is refused: ClientZero"},
		{"no operation", changedPairs(pairs, 8+28, 77), "a pair of it is refused: UnknownOperation"},
		{"a late moment", changedPairs(pairs, 7, 0x40), "a pair of it is refused: its moment is 4611686018427387909"},
		{"the last moment", late, ""},
		{"too long", make([]byte, PairsMax+1), "it has 1048577 bytes of pairs"},
		{"none", nil, ""},
	} {
		t.Run(row.name, func(t *testing.T) {
			_, err := AppendCheckedAskers(nil, row.pairs)
			if got := fmt.Sprint(err); got != row.want && (err != nil || row.want != "") {
				t.Errorf("%s, not %s", got, row.want)
			}
		})
	}
}

func changedPairs(pairs []byte, at int, to byte) []byte {
	found := append([]byte{}, pairs...)
	found[at] = to
	return found
}

func TestHeads(t *testing.T) {
	for _, row := range []struct {
		command string
		want    string
	}{
		{"tbd follow 64", `{"clients_max": 64, "format": 3, "profile": 1, "rules": 1}`},
		{"tbd follow 8 2", `{"clients_max": 8, "format": 3, "profile": 2, "rules": 1}`},
		{"nice tbd follow 8 2", `{"clients_max": 8, "format": 3, "profile": 2, "rules": 1}`},
		{"follow 64", ""}, {"tbd follow", ""}, {"tbd follow x", ""}, {"tbd follow 1 2 3", ""},
		{"tbd run 64", ""}, {"tbd follow -1", ""}, {"tbd follow 1 x", ""}, {"", ""},
	} {
		t.Run(row.command, func(t *testing.T) {
			head, err := HeadOf(strings.Fields(row.command))
			if row.want == "" {
				if !errors.Is(err, ErrCommand) {
					t.Errorf("%v, %v", head, err)
				}
			} else if err != nil || head.Wanted() != row.want {
				t.Errorf("%v, %v; not %s", head.Wanted(), err, row.want)
			}
		})
	}
}

func TestRulesOfHeads(t *testing.T) {
	head := Head{ClientsMax: 64, Profile: 1}
	mine := Head{ClientsMax: 64, Profile: 1, ID: "00ff"}.Bytes()
	if want := `{"clients_max": 64, "format": 3, "id": "00ff", "profile": 1, "rules": 1}`; string(mine) != want {
		t.Errorf("%s, not %s", mine, want)
	}
	for _, row := range []struct {
		name, found string
		want        bool
	}{
		{"its own", string(mine), true},
		{"in another order", `{"rules":1,"profile":1,"id":"1","format":3,"clients_max":64}`, true},
		{"without an id", head.Wanted(), true},
		{"other clients", `{"clients_max": 63, "format": 3, "id": "1", "profile": 1, "rules": 1}`, false},
		{"another profile", `{"clients_max": 64, "format": 3, "id": "1", "profile": 2, "rules": 1}`, false},
		{"another format", `{"clients_max": 64, "format": 2, "id": "1", "profile": 1, "rules": 1}`, false},
		{"other rules", `{"clients_max": 64, "format": 3, "id": "1", "profile": 1, "rules": 2}`, false},
		{"a restore that did not end", string(Head{ClientsMax: 64, Profile: 1, IsUnfinished: true}.Bytes()), false},
		{"no object", `[]`, false}, {"null", `null`, false}, {"no JSON", "x", false}, {"nothing", "", false},
	} {
		t.Run(row.name, func(t *testing.T) {
			if got := head.HasSameRules([]byte(row.found)); got != row.want {
				t.Errorf("%v", got)
			}
		})
	}
	if IsSameHead(mine, Head{ClientsMax: 64, Profile: 1, ID: "0100"}.Bytes()) || !IsSameHead(mine, mine) {
		t.Error("an id is of one log")
	}
}

func FuzzParse(f *testing.F) {
	for _, it := range someBytes {
		f.Add(it)
	}
	f.Fuzz(func(t *testing.T, data []byte) {
		entry, err := Parse(data)
		if err != nil {
			// with its sum corrected, more of it is read
			if entry, err = ParseTrusted(data); err != nil {
				return
			}
		}
		again, err := Parse(entry.Append(nil))
		if err != nil || !reflect.DeepEqual(again, entry) && len(entry.Pairs) <= PairsMax {
			t.Fatalf("%v, %v; not %v", again, err, entry)
		}
		askers, err := AppendCheckedAskers(nil, entry.Pairs)
		if more, fault := AppendAskers(nil, entry.Pairs); err == nil && (fault != nil || !reflect.DeepEqual(more, askers)) {
			t.Fatalf("%v, %v; not %v", more, fault, askers)
		}
	})
}
