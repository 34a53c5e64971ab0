package logcopy

import (
	"bytes"
	"encoding/hex"
	"errors"
	"fmt"
	"os"
	"path/filepath"
	"strings"
	"syscall"
	"testing"

	"telovamish.org/server/internal/agreed"
	"telovamish.org/server/internal/entries"
	"telovamish.org/server/internal/report"
)

// What the replica in Python wrote of two entries.
const (
	logRow = "5442434f5059310a01000000000000000a00000000000000c8000000aa9dbb0a5442454e54525932ef0952718416bed0" +
		"6aabd585748b54d704976b54b9d6998b081b66d3a5c72465616161616161616161616161616161610100000000000000" +
		"000000000000000001010101010101010101010101010101010101010101010101010101010101010000000000000000" +
		"000000000000000000000000000000000000000000000000000000000000000001000000000000000100000000000000" +
		"000000000000000000000000000000000000000002000000000000000000000000000000000000000200000000000000" +
		"1400000000000000c8000000376fe2475442454e54525932fce49a5944e55e8969cd35fc391d0d754c9dda6c1d6b9e12" +
		"00eae08f7e25198a61616161616161616161616161616161020000000000000001000000000000000202020202020202" +
		"020202020202020202020202020202020202020202020202000000000000000000000000000000000000000000000000" +
		"000000000000000000000000000000000200000000000000020000000000000000000000000000000000000000000000" +
		"000000000200000000000000000000000000000000000000"
	syncedRow = "c801000000000000"
)

// someEntry is the entry of a register of a client with this number.
func someEntry(number uint64) []byte {
	it := entries.Entry{Number: number, Log: entries.Claim{Position: number - 1}}
	copy(it.Writer[:], "aaaaaaaaaaaaaaaa")
	for at := range it.Log.Hash {
		it.Log.Hash[at] = byte(number)
	}
	frame := make([]byte, 48)
	frame[0], frame[28] = byte(number), 2
	it.Pairs = entries.AppendPair(nil, number, frame)
	return it.Append(nil)
}

// made is a copy with some entries, which is synced.
func made(t *testing.T, count uint64) (*Copy, string) {
	t.Helper()
	folder := filepath.Join(t.TempDir(), "copy")
	c, err := Open(folder)
	if err == nil {
		err = c.Scan(nil)
	}
	for number := uint64(1); number <= count && err == nil; number++ {
		_, err = c.Append(agreed.Place(10*number), someEntry(number))
	}
	if err == nil {
		err = c.Sync(c.Mark())
	}
	if err != nil {
		t.Fatal(err)
	}
	t.Cleanup(func() { c.Close() })
	return c, folder
}

// scanned opens a copy and reads what is there.
func scanned(folder string) (*Copy, []Record, error) {
	c, err := Open(folder)
	if err != nil {
		return nil, nil, err
	}
	found := []Record{}
	err = c.Scan(func(it Record, _ entries.Entry) error {
		it.Data = append([]byte(nil), it.Data...)
		found = append(found, it)
		return nil
	})
	if err != nil {
		c.Close()
	}
	return c, found, err
}

func read(t *testing.T, path string) []byte {
	t.Helper()
	data, err := os.ReadFile(path)
	if err != nil {
		t.Fatal(err)
	}
	return data
}

func write(t *testing.T, path string, data []byte) {
	t.Helper()
	if err := os.WriteFile(path, data, 0o600); err != nil {
		t.Fatal(err)
	}
}

// change writes a byte of a file in its place: a system syncs a file that is written again as a whole.
func change(t *testing.T, path string, at int, to byte) {
	t.Helper()
	file, err := os.OpenFile(path, os.O_WRONLY, 0)
	if err != nil {
		t.Fatal(err)
	}
	defer file.Close()
	if _, err := file.WriteAt([]byte{to}, int64(at)); err != nil {
		t.Fatal(err)
	}
}

// ends is the status and the line of why something ended.
func ends(err error) string {
	var ended *report.Ended
	if errors.As(err, &ended) {
		return fmt.Sprintf("%d %s", ended.Status, ended.Line)
	}
	return fmt.Sprint(err)
}

func same(t *testing.T, what string, got, want any) {
	t.Helper()
	if fmt.Sprint(got) != fmt.Sprint(want) {
		t.Errorf("%s: got %v, want %v", what, got, want)
	}
}

func TestBytes(t *testing.T) {
	_, folder := made(t, 2)
	same(t, "log", hex.EncodeToString(read(t, folder+"/log")), logRow)
	same(t, "synced", hex.EncodeToString(read(t, folder+"/synced")), syncedRow)
}

func TestWhatWasThereIsThere(t *testing.T) {
	c, folder := made(t, 5)
	end := c.Mark().End
	c.Close()
	c, found, err := scanned(folder)
	if err != nil {
		t.Fatal(err)
	}
	defer c.Close()
	same(t, "mark", c.Mark(), Mark{5, 50, end})
	same(t, "synced", c.Synced(), Mark{5, 50, end})
	same(t, "cut off", c.CutOff(), 0)
	for at, it := range found {
		number := uint64(at + 1)
		same(t, "numbers", []any{it.Position, it.Place}, []any{number, 10 * number})
		same(t, "data", it.Data, someEntry(number))
	}
	same(t, "folder", c.Folder(), folder)
}

// TestTornTail cuts the last record at many of its bytes.
func TestTornTail(t *testing.T) {
	c, folder := made(t, 5)
	synced := c.Mark().End
	if _, err := c.Append(60, someEntry(6)); err != nil {
		t.Fatal(err)
	}
	c.Close()
	data := read(t, folder+"/log")
	for length := synced; length < int64(len(data)); length += 11 {
		write(t, folder+"/log", data[:length])
		write(t, folder+"/synced", little.AppendUint64(nil, uint64(synced)))
		c, found, err := scanned(folder)
		if err != nil {
			t.Fatal(length, err)
		}
		same(t, "records", []any{len(found), c.CutOff()}, []any{5, length - synced})
		same(t, "end", c.Mark().End, synced)
		c.Close()
	}
}

// TestDamage changes each byte of a copy that was synced.
func TestDamage(t *testing.T) {
	c, folder := made(t, 5)
	c.Close()
	data := read(t, folder+"/log")
	for at, was := range data {
		change(t, folder+"/log", at, was^4)
		if _, _, err := scanned(folder); !strings.HasPrefix(ends(err), "24 Damaged: ") {
			t.Errorf("byte %d: %v", at, err)
		}
		change(t, folder+"/log", at, was)
	}
	write(t, folder+"/log", data[:len(data)-1])
	_, _, err := scanned(folder)
	same(t, "a byte less", ends(err), fmt.Sprintf("24 Damaged: the record after position 4, at byte %d of %s/log",
		8+4*(len(data)-8)/5, folder))
	write(t, folder+"/log", append([]byte("TBCOPY2\n"), data[8:]...))
	_, _, err = scanned(folder)
	same(t, "another magic", ends(err), fmt.Sprintf("24 Damaged: %s/log is no copy of a log", folder))
}

// TestWrongRecords has records with right checksums that are not those of a copy.
func TestWrongRecords(t *testing.T) {
	record := func(position uint64, data []byte) []byte {
		it := little.AppendUint64(nil, position)
		it = little.AppendUint64(it, 10)
		it = append(little.AppendUint32(it, uint32(len(data))), 0, 0, 0, 0)
		it = append(it, data...)
		little.PutUint32(it[atSum:], sumOf(it))
		return it
	}
	for name, c := range map[string]struct {
		data []byte
		want string
	}{
		"position": {record(2, someEntry(1)), "24 Damaged: position 2 after 0"},
		"entry":    {record(1, []byte("it")), "24 Damaged: the entry at 1: it has no head of an entry"},
		"empty":    {record(1, nil), "24 Damaged: the entry at 1: it has no head of an entry"},
	} {
		t.Run(name, func(t *testing.T) {
			folder := t.TempDir()
			write(t, folder+"/log", append([]byte(magic), c.data...))
			_, _, err := scanned(folder)
			same(t, "the end", ends(err), c.want)
		})
	}
}

func TestOneReplica(t *testing.T) {
	_, folder := made(t, 1)
	_, err := Open(folder)
	same(t, "the second", ends(err), fmt.Sprintf("1 %s/log: is in use", folder))
	_, err = Open("/dev/null/copy")
	same(t, "no folder", ends(err), "1 /dev/null/copy: Not a directory")
}

// TestFailedSync has what a sync failed at be cut off: the system shows it, and may not write it any more.
func TestFailedSync(t *testing.T) {
	c, folder := made(t, 5)
	synced := c.Mark().End
	for place := agreed.Place(60); place <= 70; place += 10 {
		if _, err := c.Append(place, someEntry(uint64(place)/10)); err != nil {
			t.Fatal(err)
		}
		c.failed = failure(c.path, syscall.EIO)
		same(t, "a sync", ends(c.Sync(c.Mark())), fmt.Sprintf("1 %s/log: Input/output error", folder))
	}
	same(t, "synced", c.Synced().Position, 5)
	c.Close()
	c, found, err := scanned(folder)
	if err != nil {
		t.Fatal(err)
	}
	defer c.Close()
	same(t, "records", []any{len(found), c.Mark().End}, []any{5, synced})
}

// TestReadOnly has each write fail, which names the file.
func TestReadOnly(t *testing.T) {
	c, folder := made(t, 1)
	file, err := os.Open(folder + "/log")
	if err != nil {
		t.Fatal(err)
	}
	defer file.Close()
	mine := c.file
	c.file = file
	_, err = c.Append(20, someEntry(2))
	same(t, "an append", ends(err), fmt.Sprintf("1 %s/log: Bad file descriptor", folder))
	same(t, "the mark", c.Mark().Position, 1)
	c.file = mine
	if err := os.Remove(folder + "/synced"); err != nil {
		t.Fatal(err)
	}
	if err := os.Mkdir(folder+"/synced", 0o700); err != nil {
		t.Fatal(err)
	}
	same(t, "a sync", ends(c.Sync(c.Mark())), fmt.Sprintf("1 %s/synced: Is a directory", folder))
	os.Remove(folder + "/synced")
	same(t, "a later sync", ends(c.Sync(c.Mark())), fmt.Sprintf("1 %s/synced: Is a directory", folder))
}

// TestRecords reads what is there from each record on, while more is appended, and in pieces.
func TestRecords(t *testing.T) {
	c, folder := made(t, 5)
	from := Start
	for number := uint64(1); number <= 6; number++ {
		next, end := number, from
		err := c.Records(from, func(it Record) error {
			same(t, "data", it.Data, someEntry(next))
			if next++; end == from {
				end = it.End
			}
			return nil
		})
		same(t, "the end", []any{err, next}, []any{nil, 6})
		from = end
	}
	same(t, "one", c.Records(Start, func(Record) error { return ErrEnough }), nil)
	other := errors.New("other")
	same(t, "an error", c.Records(Start, func(Record) error { return other }), other)
	data := read(t, folder+"/log")
	data[100] ^= 1
	write(t, folder+"/log", data)
	same(t, "damage", ends(c.Records(Start, func(Record) error { return nil })),
		fmt.Sprintf("24 Damaged: the record at byte 8 of %s/log", folder))
}

func TestManyRecords(t *testing.T) {
	c, folder := made(t, 0)
	data := bytes.Repeat([]byte("x"), 1<<20)
	for number := uint64(1); number <= 12; number++ {
		it := entries.Entry{Number: number, Pairs: data[:number<<15+1<<19]}
		it.Pairs = append([]byte(nil), it.Pairs...)
		for at := range it.Pairs { // which cannot be deflated much
			it.Pairs[at] = byte(uint64(at)*number*2654435761>>13) ^ byte(at>>8)
		}
		if _, err := c.Append(agreed.Place(number), it.Append(nil)); err != nil {
			t.Fatal(err)
		}
	}
	c.Close()
	if found := read(t, folder+"/log"); len(found) < chunk {
		t.Fatalf("the copy has only %d bytes", len(found))
	}
	c, found, err := scanned(folder)
	if err != nil {
		t.Fatal(err)
	}
	defer c.Close()
	same(t, "records", len(found), 12)
}

func TestAllRecords(t *testing.T) {
	c, folder := made(t, 5)
	size := (c.Mark().End - Start) / 5
	count := func() (found int, err error) {
		err = AllRecords(folder, func(Record) error { found++; return nil })
		return found, err
	}
	found, err := count()
	same(t, "all", []any{found, err}, []any{5, nil})
	data := read(t, folder+"/log")
	write(t, folder+"/log", data[:len(data)-1])
	found, err = count()
	same(t, "a byte less", []any{found, err}, []any{4, nil})
	data[Start+3*size+40] ^= 1
	write(t, folder+"/log", data)
	found, err = count()
	same(t, "damage", []any{found, ends(err)},
		[]any{3, fmt.Sprintf("24 Damaged: the record at byte %d of %s/log", Start+3*size, folder)})
	same(t, "enough", AllRecords(folder, func(Record) error { return ErrEnough }), nil)
	_, err = count()
	same(t, "no copy", ends(Records(folder+"2", nil)), fmt.Sprintf("1 %s2/log: No such file or directory", folder))
}

func TestFrom(t *testing.T) {
	c, folder := made(t, 5)
	other := folder + "2"
	_, err := From(folder, other)
	same(t, "without a head", ends(err), fmt.Sprintf("1 %s/head: No such file or directory", folder))
	if _, err := os.Stat(other); err == nil {
		t.Error("a folder is made")
	}
	if _, err := Kept(folder, "head", []byte("the log")); err != nil {
		t.Fatal(err)
	}
	mark, err := From(folder, other) // which is in use
	same(t, "the last one", []any{mark, err}, []any{c.Mark(), nil})
	same(t, "the log", read(t, other+"/log"), read(t, folder+"/log"))
	same(t, "the head", string(read(t, other+"/head")), "the log")
	_, err = From(folder, other)
	same(t, "once more", ends(err), fmt.Sprintf("1 %s has a copy already", other))
}

// TestFromDamaged leaves nothing of a copy that is not whole.
func TestFromDamaged(t *testing.T) {
	c, folder := made(t, 5)
	size := (c.Mark().End - Start) / 5
	if _, err := Kept(folder, "head", []byte("the log")); err != nil {
		t.Fatal(err)
	}
	data := read(t, folder+"/log")
	wrong := append([]byte(nil), data...)
	wrong[Start+3*size+40] ^= 1
	write(t, folder+"/log", wrong)
	other := folder + "2"
	_, err := From(folder, other)
	same(t, "damage", ends(err), fmt.Sprintf("24 Damaged: the record at byte %d of %s/log", Start+3*size, folder))
	// an entry with another SHA-256, in a record with a right checksum
	wrong = append([]byte(nil), data...)
	wrong[Start+3*size+head+20] ^= 1
	record := wrong[Start+3*size : Start+4*size]
	little.PutUint32(record[atSum:], sumOf(record))
	write(t, folder+"/log", wrong)
	_, err = From(folder, other)
	same(t, "rot", ends(err), "24 Damaged: the entry at 4: it does not have its SHA-256")
	left, err := os.ReadDir(other)
	same(t, "what is left", []any{len(left), err}, []any{0, nil})
	write(t, folder+"/log", data)
	if _, err := From(folder, other); err != nil {
		t.Error(err)
	}
}

func TestKept(t *testing.T) {
	folder := t.TempDir()
	for _, name := range []string{"m1", "m2"} {
		found, err := Kept(folder, "name", []byte(name))
		same(t, "the name", []any{string(found), err}, []any{"m1", nil})
	}
	_, err := Kept(folder+"/none", "name", []byte("m1"))
	same(t, "no folder", ends(err), fmt.Sprintf("1 %s/none/name: No such file or directory", folder))
	found, err := HeadIn(folder)
	same(t, "no head", []any{found, ends(err)}, []any{[]byte{}, fmt.Sprintf("1 %s/head: No such file or directory", folder)})
}

func BenchmarkScan(b *testing.B) {
	folder := b.TempDir()
	c, err := Open(folder)
	if err == nil {
		err = c.Scan(nil)
	}
	for number := uint64(1); number <= 100_000 && err == nil; number++ {
		_, err = c.Append(agreed.Place(number), someEntry(number))
	}
	if err != nil {
		b.Fatal(err)
	}
	c.Close()
	b.ResetTimer()
	for i := 0; i < b.N; i++ {
		c, err := Open(folder)
		if err == nil {
			err = c.Scan(nil)
		}
		if err != nil {
			b.Fatal(err)
		}
		c.Close()
	}
}
