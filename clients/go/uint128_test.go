package tbclient_test

import (
	"encoding/json"
	"errors"
	"fmt"
	"math/big"
	"strings"
	"testing"

	tb "telovamish.org/tbclient"
)

const most = "340282366920938463463374607431768211455"

func TestUint128AndBigInt(t *testing.T) {
	for _, row := range []struct {
		text  string
		value tb.Uint128
	}{
		{"0", tb.Uint128{}},
		{"1", tb.ToUint128(1)},
		{"18446744073709551615", tb.Uint128{Lo: 1<<64 - 1}},
		{"18446744073709551616", tb.Uint128{Hi: 1}},
		{"36893488147419103235", tb.Uint128{Hi: 2, Lo: 3}},
		{most, tb.AmountMax},
	} {
		number, _ := new(big.Int).SetString(row.text, 10)
		value, err := tb.BigIntToUint128(number)
		if err != nil || value != row.value {
			t.Errorf("%s is %+v, %v", row.text, value, err)
		}
		if value.BigInt().Cmp(number) != 0 || value.String() != row.text {
			t.Errorf("%s comes back as %v", row.text, value)
		}
		parsed, err := tb.ParseUint128(row.text)
		if err != nil || parsed != row.value {
			t.Errorf("%s is parsed as %+v, %v", row.text, parsed, err)
		}
	}
}

func TestUint128AndHex(t *testing.T) {
	for text, wanted := range map[string]tb.Uint128{
		"0": {}, "a": {Lo: 10}, "0A": {Lo: 10}, "10000000000000abc": {Hi: 1, Lo: 0xabc},
		strings.Repeat("f", 32): tb.AmountMax, strings.Repeat("0", 31) + "1": {Lo: 1},
	} {
		value, err := tb.HexStringToUint128(text)
		if err != nil || value != wanted {
			t.Errorf("%s is %x, %v", text, value, err)
		}
		if back, err := tb.HexStringToUint128(fmt.Sprintf("%x", value)); err != nil || back != wanted {
			t.Errorf("%s comes back as %x, %v", text, back, err)
		}
	}
	for _, text := range []string{"", "g", "0x1", "-1", "+1", " 1", strings.Repeat("0", 33)} {
		if _, err := tb.HexStringToUint128(text); !errors.Is(err, tb.ErrInvalid) {
			t.Errorf("%q is answered %v", text, err)
		}
	}
}

func TestUint128AndBytes(t *testing.T) {
	value := tb.Uint128{Hi: 1 << 56, Lo: 2}
	if data := value.Bytes(); data != [16]byte{0: 2, 15: 1} || tb.BytesToUint128(data) != value {
		t.Errorf("%v has the bytes %v", value, data)
	}
}

func TestUint128ByTheVerbsOfNumbers(t *testing.T) {
	id := tb.Uint128{Hi: 1, Lo: 0xabc}
	for form, wanted := range map[string]string{
		"%v": "18446744073709554364", "%s": "18446744073709554364", "%d": "18446744073709554364",
		"%x": "10000000000000abc", "%#X": "0X10000000000000ABC", "%032x": "000000000000000" + "10000000000000abc",
	} {
		if found := fmt.Sprintf(form, id); found != wanted {
			t.Errorf("%s prints %s, not %s", form, found, wanted)
		}
	}
	if found := fmt.Sprintf("%+v %+v", tb.ToUint128(100), struct{ Amount tb.Uint128 }{tb.ToUint128(7)}); found != "100 {Amount:7}" {
		t.Errorf("with the names of fields it prints %s", found)
	}
}

func TestUint128Refusals(t *testing.T) {
	above, _ := new(big.Int).SetString("340282366920938463463374607431768211456", 10)
	for _, number := range []*big.Int{nil, big.NewInt(-1), above, new(big.Int).Lsh(above, 72)} {
		if _, err := tb.BigIntToUint128(number); !errors.Is(err, tb.ErrInvalid) {
			t.Errorf("%v is answered %v", number, err)
		}
	}
	for _, text := range []string{"", "-1", "+1", " 1", "1.0", "1e3", "0x1", "ten", most + "0", "340282366920938463463374607431768211456", "\u0661"} {
		if _, err := tb.ParseUint128(text); !errors.Is(err, tb.ErrInvalid) {
			t.Errorf("%q is answered %v", text, err)
		}
	}
}

func TestUint128OfManyDigits(t *testing.T) {
	for _, count := range []int{62, 63, 1_000_000} {
		_, err := tb.ParseUint128(most + strings.Repeat("0", count))
		if err == nil || !strings.Contains(err.Error(), "must be at most 2^128 - 1") {
			t.Errorf("%d digits are answered %v", len(most)+count, err)
		}
		if value, err := tb.ParseUint128(strings.Repeat("0", count) + most); value != tb.AmountMax {
			t.Errorf("%d zeros in front are answered %v, %v", count, value, err)
		}
	}
}

func TestUint128Sums(t *testing.T) {
	low := tb.Uint128{Lo: 1<<64 - 1}
	if sum, fits := low.Add(tb.ToUint128(1)); sum != (tb.Uint128{Hi: 1}) || !fits {
		t.Errorf("2^64 is %v, %v", sum, fits)
	}
	if sum, fits := tb.AmountMax.Add(tb.ToUint128(1)); !sum.IsZero() || fits {
		t.Errorf("2^128 is %v, %v", sum, fits)
	}
	if rest, fits := (tb.Uint128{Hi: 1}).Sub(tb.ToUint128(1)); rest != low || !fits {
		t.Errorf("2^64 - 1 is %v, %v", rest, fits)
	}
	if rest, fits := (tb.Uint128{}).Sub(tb.ToUint128(1)); rest != tb.AmountMax || fits {
		t.Errorf("-1 is %v, %v", rest, fits)
	}
	if low.Cmp(tb.Uint128{Hi: 1}) != -1 || (tb.Uint128{Hi: 1}).Cmp(low) != 1 || low.Cmp(low) != 0 {
		t.Error("the order of 2^64 - 1 and 2^64")
	}
}

func TestRecordsInJSON(t *testing.T) {
	sale := tb.Transfer{ID: tb.AmountMax, Amount: tb.ToUint128(100), Flags: tb.TransferPending, Timestamp: 1<<64 - 1}
	data, err := json.Marshal(sale)
	if err != nil {
		t.Fatal(err)
	}
	var back tb.Transfer
	if err := json.Unmarshal(data, &back); err != nil || back != sale {
		t.Errorf("%s comes back as %+v, %v", data, back, err)
	}
	if err := json.Unmarshal([]byte(`{"amount": "-1"}`), &back); !errors.Is(err, tb.ErrInvalid) {
		t.Errorf("an amount of -1 is answered %v", err)
	}
}

// A number is refused, or comes back from its digits.
func FuzzParseUint128(f *testing.F) {
	for _, text := range []string{"0", "007", most, most + "0", "340282366920938463463374607431768211456", "-1", "1e3", ""} {
		f.Add(text)
	}
	f.Fuzz(func(t *testing.T, text string) {
		value, err := tb.ParseUint128(text)
		if err != nil {
			if !errors.Is(err, tb.ErrInvalid) {
				t.Fatal(err)
			}
			return
		}
		digits := strings.TrimLeft(text, "0")
		if digits == "" {
			digits = "0"
		}
		if back, err := tb.HexStringToUint128(fmt.Sprintf("%x", value)); value.String() != digits || err != nil || back != value {
			t.Fatalf("%q is %v, in hex %v, %v", text, value, back, err)
		}
	})
}
