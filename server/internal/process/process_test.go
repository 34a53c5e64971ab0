package process

import (
	"os"
	"testing"
)

func TestHowAProcessEnded(t *testing.T) {
	for status, want := range map[int]string{
		0: "with status 0", 3: "with status 3", 128: "with status 128", 137: "by SIGKILL", -6: "by SIGABRT",
		-34: "by signal 34", 255: "with status 255",
	} {
		if got := EndOf(status); got != want {
			t.Errorf("%d: %s, not %s", status, got, want)
		}
	}
}

func TestLastLine(t *testing.T) {
	for said, want := range map[string]string{"": "", "\n": "", "a": "a", "a\nb\n": "b", "a\r\nb\r\n\n": "b"} {
		if got := LastLine(said); got != want {
			t.Errorf("%q: %q, not %q", said, got, want)
		}
	}
}

// TestBytesThatWereWritten into a pipe are counted before they are read, and once.
func TestBytesThatWereWritten(t *testing.T) {
	in, out, err := os.Pipe()
	if err != nil {
		t.Fatal(err)
	}
	defer in.Close()
	defer out.Close()
	it := &Incoming{File: in}
	out.Write(make([]byte, 100))
	if got := it.Written(); got != 100 {
		t.Errorf("%d before it is read", got)
	}
	it.Read(make([]byte, 30))
	out.Write(make([]byte, 5))
	if got := it.Written(); got != 105 {
		t.Errorf("%d after a part was read", got)
	}
}
