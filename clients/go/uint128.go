package tbclient

import (
	"encoding/binary"
	"encoding/hex"
	"fmt"
	"math/big"
	"math/bits"
	"strings"
)

// Uint128 is an unsigned integer of 128 bits: an id or an amount. It may be compared by == and be
// the key of a map. The zero value is 0.
type Uint128 struct {
	Hi, Lo uint64
}

// AmountMax is the largest amount, 2^128 - 1. As the amount of a transfer that posts a pending one
// it means all of the pending amount.
var AmountMax = Uint128{Hi: 1<<64 - 1, Lo: 1<<64 - 1}

// ToUint128 is the number with this value.
func ToUint128(value uint64) Uint128 {
	return Uint128{Lo: value}
}

// BigIntToUint128 is the number with this value. A value that is negative or above 2^128 - 1, or
// nil, is an [InvalidError].
func BigIntToUint128(value *big.Int) (Uint128, error) {
	switch {
	case value == nil:
		return Uint128{}, invalid("Uint128", "must be an integer, not nil")
	case value.Sign() < 0:
		return Uint128{}, invalid("Uint128", "must be 0 at least, and is negative")
	case value.BitLen() > 128:
		return Uint128{}, invalid("Uint128", "must be at most 2^128 - 1, not a number of %d bits", value.BitLen())
	}
	var data [16]byte
	return ofBigEndian(value.FillBytes(data[:])), nil
}

func ofBigEndian(data []byte) Uint128 {
	return Uint128{Hi: binary.BigEndian.Uint64(data[:8]), Lo: binary.BigEndian.Uint64(data[8:])}
}

// BytesToUint128 is the number of these bytes, the low one first, as TigerBeetle's clients have them.
func BytesToUint128(value [16]byte) Uint128 {
	return decodeUint128(value[:])
}

const (
	uint128Digits    = 39 // of 2^128 - 1
	uint128HexDigits = 32
)

// HexStringToUint128 reads a number in 1 to 32 hexadecimal digits, as %x prints it. Anything else, as
// a sign or 0x, is an [InvalidError].
func HexStringToUint128(text string) (Uint128, error) {
	if text == "" || len(text) > uint128HexDigits {
		return Uint128{}, invalid("Uint128", "must have 1 to 32 hexadecimal digits, not %d", len(text))
	}
	data, err := hex.DecodeString(strings.Repeat("0", uint128HexDigits-len(text)) + text)
	if err != nil {
		return Uint128{}, invalid("Uint128", "must be hexadecimal digits, not %q", text)
	}
	return ofBigEndian(data), nil
}

// ParseUint128 reads a number in decimal digits. Anything else, as a sign or a space, is an
// [InvalidError].
func ParseUint128(text string) (Uint128, error) {
	if text == "" {
		return Uint128{}, invalid("Uint128", "must be decimal digits")
	}
	for _, digit := range text {
		if digit < '0' || digit > '9' {
			return Uint128{}, invalid("Uint128", "must be decimal digits, not %.40q", text)
		}
	}
	text = strings.TrimLeft(text, "0")
	if len(text) > uint128Digits {
		return Uint128{}, invalid("Uint128", "must be at most 2^128 - 1, not a number of %d digits", len(text))
	}
	value, _ := new(big.Int).SetString("0"+text, 10)
	return BigIntToUint128(value)
}

// BigInt is the number as a new big.Int.
func (u Uint128) BigInt() *big.Int {
	var data [16]byte
	binary.BigEndian.PutUint64(data[:8], u.Hi)
	binary.BigEndian.PutUint64(data[8:], u.Lo)
	return new(big.Int).SetBytes(data[:])
}

// Bytes are the number's bytes, the low one first, as TigerBeetle's clients have them.
func (u Uint128) Bytes() (data [16]byte) {
	u.encode(data[:])
	return data
}

// String is the number in decimal digits.
func (u Uint128) String() string {
	return u.BigInt().String()
}

// Format prints the number by the verbs of a big.Int, as %v, %d and %x.
func (u Uint128) Format(state fmt.State, verb rune) {
	u.BigInt().Format(signless{state}, verb)
}

// signless ignores the flag of %+v, which asks for the names of fields and for no sign.
type signless struct{ fmt.State }

func (s signless) Flag(flag int) bool { return flag != '+' && s.State.Flag(flag) }

// IsZero reports whether the number is 0.
func (u Uint128) IsZero() bool {
	return u == Uint128{}
}

// Cmp is -1, 0 or 1 if the number is below the other one, equal to it, or above it.
func (u Uint128) Cmp(other Uint128) int {
	switch {
	case u == other:
		return 0
	case u.Hi < other.Hi || u.Hi == other.Hi && u.Lo < other.Lo:
		return -1
	}
	return 1
}

// Add is the sum of two numbers, and whether it fits into 128 bits. If it does not, the sum is
// without its 129th bit.
func (u Uint128) Add(other Uint128) (sum Uint128, fits bool) {
	lo, carry := bits.Add64(u.Lo, other.Lo, 0)
	hi, carry := bits.Add64(u.Hi, other.Hi, carry)
	return Uint128{Hi: hi, Lo: lo}, carry == 0
}

// Sub is the number less the other one, and whether that is 0 at least. If it is not, 2^128 is
// added.
func (u Uint128) Sub(other Uint128) (rest Uint128, fits bool) {
	lo, borrow := bits.Sub64(u.Lo, other.Lo, 0)
	hi, borrow := bits.Sub64(u.Hi, other.Hi, borrow)
	return Uint128{Hi: hi, Lo: lo}, borrow == 0
}

// MarshalText is the number in decimal digits: in JSON a string, because many readers round
// numbers.
func (u Uint128) MarshalText() ([]byte, error) {
	return []byte(u.String()), nil
}

// UnmarshalText reads what MarshalText wrote.
func (u *Uint128) UnmarshalText(text []byte) error {
	value, err := ParseUint128(string(text))
	if err == nil {
		*u = value
	}
	return err
}

func (u Uint128) encode(data []byte) {
	binary.LittleEndian.PutUint64(data[:8], u.Lo)
	binary.LittleEndian.PutUint64(data[8:16], u.Hi)
}

func decodeUint128(data []byte) Uint128 {
	return Uint128{Lo: binary.LittleEndian.Uint64(data[:8]), Hi: binary.LittleEndian.Uint64(data[8:16])}
}
