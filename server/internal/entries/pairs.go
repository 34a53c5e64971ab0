package entries

import (
	"errors"
	"fmt"

	"telovamish.org/server/internal/frames"
)

const pairHead = MomentSize + frames.HeaderSize // bytes of a pair before the body of its request

// ErrPairs is why pairs are not taken apart.
var ErrPairs = errors.New("its last pair is not whole")

// AppendPair appends the moment and the request of a pair.
func AppendPair(to []byte, moment uint64, frame ...[]byte) []byte {
	to = appendNumber(to, moment)
	for _, part := range frame {
		to = append(to, part...)
	}
	return to
}

// Pair is a pair of an entry.
type Pair struct {
	Moment uint64
	Frame  frames.Header // the whole request
}

// NextPair is the pair at this place, and the place of the next one.
func NextPair(pairs []byte, at int) (Pair, int, error) {
	if len(pairs)-at < pairHead {
		return Pair{}, at, ErrPairs
	}
	header := frames.Header(pairs[at+MomentSize:])
	end := at + MomentSize + header.Length()
	if end > len(pairs) {
		return Pair{}, at, ErrPairs
	}
	return Pair{little.Uint64(pairs[at:]), header[:end-at-MomentSize]}, end, nil
}

// FirstMoment is the moment of the first pair: those of an entry are near each other.
func FirstMoment(pairs []byte) (uint64, bool) {
	if len(pairs) < MomentSize {
		return 0, false
	}
	return little.Uint64(pairs), true
}

// AppendAskers appends what the reply of each pair repeats of its request.
func AppendAskers(to []frames.Asker, pairs []byte) ([]frames.Asker, error) {
	for at := 0; at < len(pairs); {
		pair, end, err := NextPair(pairs, at)
		if err != nil {
			return to, err
		}
		to, at = append(to, pair.Frame.Asker()), end
	}
	return to, nil
}

// AppendCheckedAskers is AppendAskers of pairs that a server takes: no entry that a replica wrote has a
// pair at which one would end.
func AppendCheckedAskers(to []frames.Asker, pairs []byte) ([]frames.Asker, error) {
	if len(pairs) > PairsMax {
		return to, fmt.Errorf("it has %d bytes of pairs", len(pairs))
	}
	for at := 0; at < len(pairs); {
		pair, end, err := NextPair(pairs, at)
		if err != nil {
			return to, err
		}
		fault := pair.Frame.RequestFault()
		if pair.Moment > MomentMax {
			fault = fmt.Sprintf("its moment is %d", pair.Moment)
		}
		if fault != "" {
			return to, fmt.Errorf("a pair of it is refused: %s", fault)
		}
		to, at = append(to, pair.Frame.Asker()), end
	}
	return to, nil
}
