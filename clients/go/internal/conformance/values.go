package main

import (
	"bytes"
	"encoding/json"
	"errors"
	"fmt"
	"io/fs"
	"math/big"
	"os"
	"reflect"
	"strconv"
	"time"

	"telovamish.org/tbclient"
)

// object is a JSON object. Its numbers are json.Number.
type object = map[string]any

func decodeLine(text []byte) (object, error) {
	decoder := json.NewDecoder(bytes.NewReader(text))
	decoder.UseNumber()
	var line object
	return line, decoder.Decode(&line)
}

// unrepresentable says that no caller in Go can pass such a value: it would not compile.
type unrepresentable string

func (u unrepresentable) Error() string { return string(u) }

// unsupported says that the kit asks for what this runner does not know.
type unsupported string

func (u unsupported) Error() string { return string(u) }

// What the kit gives

// integerOf is an integer within the range of a type of this many bits. No other value
// may come where Go requires such a type.
func integerOf(given any, bits int) (*big.Int, error) {
	text, isText := given.(string)
	if !isText {
		return nil, unrepresentable(fmt.Sprintf("%v is no integer", given))
	}
	value, isInteger := new(big.Int).SetString(text, 10)
	if !isInteger || value.Sign() < 0 || value.BitLen() > bits {
		return nil, unrepresentable(fmt.Sprintf("%s is no unsigned integer of %d bits", text, bits))
	}
	return value, nil
}

func uint128Of(given any) (tbclient.Uint128, error) {
	value, err := integerOf(given, 128)
	if err != nil {
		return tbclient.Uint128{}, err
	}
	return tbclient.BigIntToUint128(value)
}

// flagsOf are the bits of flags: the sum of those with these names, or an integer.
func flagsOf(given any, name func(bit uint16) string) (uint64, error) {
	names, isList := given.([]any)
	if !isList {
		value, err := integerOf(given, 16)
		if err != nil {
			return 0, err
		}
		return value.Uint64(), nil
	}
	var flags uint64
	for _, wanted := range names {
		bit := uint16(1)
		for ; bit != 0 && name(bit) != wanted; bit <<= 1 {
		}
		if bit == 0 {
			return 0, unsupported(fmt.Sprintf("no flag %v", wanted))
		}
		flags |= uint64(bit)
	}
	return flags, nil
}

func accountFlag(bit uint16) string { return tbclient.AccountFlags(bit).String() }

func transferFlag(bit uint16) string { return tbclient.TransferFlags(bit).String() }

// recordOf is an Account or a Transfer with these fields, by the names in its JSON.
func recordOf[T tbclient.Account | tbclient.Transfer](given any, kind string, flag func(uint16) string) (T, error) {
	var record T
	fields, isObject := given.(object)
	if _, hasID := fields["id"]; !isObject || !hasID {
		return record, unrepresentable(fmt.Sprintf("%v is no %s", given, kind))
	}
	if named, isNamed := fields["kind"]; isNamed && named != kind {
		return record, unrepresentable(fmt.Sprintf("%v is no %s", named, kind))
	}
	value := reflect.ValueOf(&record).Elem()
	for at := 0; at < value.NumField(); at++ {
		f, isThere := fields[value.Type().Field(at).Tag.Get("json")]
		if !isThere {
			continue
		}
		if err := setField(value.Field(at), f, flag); err != nil {
			return record, err
		}
	}
	return record, nil
}

func setField(field reflect.Value, given any, flag func(uint16) string) error {
	switch field.Interface().(type) {
	case tbclient.Uint128:
		value, err := uint128Of(given)
		field.Set(reflect.ValueOf(value))
		return err
	case tbclient.AccountFlags, tbclient.TransferFlags:
		flags, err := flagsOf(given, flag)
		field.SetUint(flags)
		return err
	}
	value, err := integerOf(given, field.Type().Bits())
	if err == nil {
		field.SetUint(value.Uint64())
	}
	return err
}

// listOf is the list that is meant: of these items, or of a number of them with ids that rise.
func listOf(given any) ([]any, error) {
	switch value := given.(type) {
	case []any:
		return value, nil
	case object:
		if count, isCount := value["count"].(json.Number); isCount {
			return risingOf(count, value["first"])
		}
	case nil:
		return nil, unrepresentable("Go's nil slice is the empty list")
	}
	return nil, unrepresentable(fmt.Sprintf("%v is no slice", given))
}

func risingOf(count json.Number, first any) ([]any, error) {
	many, err := count.Int64()
	if err != nil {
		return nil, err
	}
	record, isRecord := first.(object)
	text, _ := first.(string)
	if isRecord {
		text, _ = record["id"].(string)
	}
	id, isInteger := new(big.Int).SetString(text, 10)
	if !isInteger {
		return nil, unsupported("no first id")
	}
	items := make([]any, many)
	for at := range items {
		if items[at] = id.String(); isRecord {
			next := make(object, len(record))
			for name, value := range record {
				next[name] = value
			}
			next["id"] = id.String()
			items[at] = next
		}
		id.Add(id, big.NewInt(1))
	}
	return items, nil
}

// requestOf is the request of an operation's name and items.
func requestOf(operation, items any) (tbclient.Request, error) {
	if operation == nil {
		return nil, nil
	}
	if operation == tbclient.OperationRegister.String() {
		return tbclient.Registration{}, nil
	}
	list, err := listOf(items)
	if err != nil {
		return nil, err
	}
	switch operation {
	case tbclient.OperationCreateAccounts.String():
		records, err := allOf(list, func(a any) (tbclient.Account, error) {
			return recordOf[tbclient.Account](a, "account", accountFlag)
		})
		return tbclient.CreateAccounts(records), err
	case tbclient.OperationCreateTransfers.String():
		records, err := allOf(list, func(a any) (tbclient.Transfer, error) {
			return recordOf[tbclient.Transfer](a, "transfer", transferFlag)
		})
		return tbclient.CreateTransfers(records), err
	case tbclient.OperationLookupAccounts.String():
		ids, err := allOf(list, uint128Of)
		return tbclient.LookupAccounts(ids), err
	case tbclient.OperationLookupTransfers.String():
		ids, err := allOf(list, uint128Of)
		return tbclient.LookupTransfers(ids), err
	}
	return nil, unrepresentable(fmt.Sprintf("%v is no Request", operation))
}

func allOf[T any](list []any, one func(any) (T, error)) ([]T, error) {
	found := make([]T, len(list))
	for at, item := range list {
		var err error
		if found[at], err = one(item); err != nil {
			return nil, err
		}
	}
	return found, nil
}

// secondsOf is a number of seconds.
func secondsOf(given any) (time.Duration, error) {
	number, isNumber := given.(json.Number)
	if !isNumber {
		return 0, unrepresentable(fmt.Sprintf("%v is no time.Duration", given))
	}
	seconds, err := number.Float64()
	return time.Duration(seconds * float64(time.Second)), err
}

func intOf(given any) (int, error) {
	number, isNumber := given.(json.Number)
	if !isNumber {
		return 0, unrepresentable(fmt.Sprintf("%v is no int", given))
	}
	return strconv.Atoi(number.String())
}

// What the kit gets

// shownRecord has each field of a record by its name: integers as text, flags as names.
func shownRecord(record any, flag func(uint16) string) object {
	shown := object{}
	value := reflect.ValueOf(record)
	for at := 0; at < value.NumField(); at++ {
		name := value.Type().Field(at).Tag.Get("json")
		switch field := value.Field(at).Interface().(type) {
		case tbclient.Uint128:
			shown[name] = field.String()
		case tbclient.AccountFlags:
			shown[name] = shownFlags(uint16(field), flag)
		case tbclient.TransferFlags:
			shown[name] = shownFlags(uint16(field), flag)
		default:
			shown[name] = strconv.FormatUint(value.Field(at).Uint(), 10)
		}
	}
	return shown
}

func shownFlags(flags uint16, name func(uint16) string) any {
	names := []string{}
	for bit := uint16(1); bit != 0; bit <<= 1 {
		if flags&bit == 0 {
			continue
		}
		if name(bit) == strconv.Itoa(int(bit)) {
			return strconv.Itoa(int(flags)) // a bit that no flag has
		}
		names = append(names, name(bit))
	}
	return names
}

func shownAll[T any](items []T, one func(T) any) []any {
	shown := make([]any, len(items))
	for at, item := range items {
		shown[at] = one(item)
	}
	return shown
}

func shownAccount(a tbclient.Account) any { return shownRecord(a, accountFlag) }

func shownTransfer(t tbclient.Transfer) any { return shownRecord(t, transferFlag) }

func shownID(u tbclient.Uint128) any { return u.String() }

func shownResults[C tbclient.Code](results tbclient.Results[C]) []any {
	return shownAll(results, func(r tbclient.Result[C]) any {
		return object{"index": r.Index, "result": r.Result.String()}
	})
}

func shownSaved(saved tbclient.Saved) object {
	return object{
		"client":  saved.Client.String(),
		"session": fmt.Sprint(saved.Session),
		"number":  fmt.Sprint(saved.Number),
		"pending": fmt.Sprintf("%x", saved.Pending),
	}
}

func shownAnswer(answer tbclient.Answer) any {
	switch answer.Operation {
	case tbclient.OperationCreateAccounts:
		return object{"results": shownResults(answer.AccountResults)}
	case tbclient.OperationCreateTransfers:
		return object{"results": shownResults(answer.TransferResults)}
	case tbclient.OperationLookupAccounts:
		return object{"records": shownAll(answer.Accounts, shownAccount)}
	case tbclient.OperationLookupTransfers:
		return object{"records": shownAll(answer.Transfers, shownTransfer)}
	}
	return object{"session": fmt.Sprint(answer.Session)}
}

func shownAsked(asked tbclient.Asked) any {
	shown := object{
		"client":    asked.Client.String(),
		"session":   fmt.Sprint(asked.Session),
		"number":    fmt.Sprint(asked.Number),
		"operation": asked.Request.Operation().String(),
		"items":     []any{},
	}
	switch items := asked.Request.(type) {
	case tbclient.CreateAccounts:
		shown["items"] = shownAll(items, shownAccount)
	case tbclient.CreateTransfers:
		shown["items"] = shownAll(items, shownTransfer)
	case tbclient.LookupAccounts:
		shown["items"] = shownAll(items, shownID)
	case tbclient.LookupTransfers:
		shown["items"] = shownAll(items, shownID)
	}
	return shown
}

// Errors

// shownError is an error of the client by the kit's names, or nil if it is not one.
func shownError(err error) object {
	shown := object{"sent": !errors.Is(err, tbclient.ErrNotSent)}
	var (
		invalid *tbclient.InvalidError
		lost    *tbclient.LostError
		refused *tbclient.RefusedError
		failed  *tbclient.EventsFailedError
		path    *fs.PathError
		link    *os.LinkError
	)
	switch {
	case errors.As(err, &invalid):
		shown["name"], shown["field"] = "InvalidValue", invalid.Field
	case errors.As(err, &lost):
		shown["name"], shown["told"] = "ReplyLost", lost.Told
		if errors.Is(err, tbclient.ErrBusy) {
			shown["name"] = "Busy"
		}
	case errors.As(err, &refused):
		shown["name"] = refused.Status.String()
	case errors.As(err, &failed):
		shown["name"] = "EventsFailed"
		shown["results"] = shownAll(failed.Events, func(f tbclient.FailedEvent) any {
			return object{"index": f.Index, "result": f.Result.String()}
		})
	case errors.As(err, &path), errors.As(err, &link):
		shown["name"], shown["sent"] = "File", false
	default:
		name := nameOf(err)
		if name == "" {
			return nil
		}
		shown["name"] = name
	}
	return shown
}

func nameOf(err error) string {
	for name, kind := range map[string]error{
		"InDoubt":        tbclient.ErrInDoubt,
		"NothingInDoubt": tbclient.ErrNothingInDoubt,
		"Closed":         tbclient.ErrClosed,
		"CannotConnect":  tbclient.ErrCannotConnect,
		"BadReply":       tbclient.ErrBadReply,
		"Cancelled":      tbclient.ErrCancelled,
	} {
		if errors.Is(err, kind) {
			return name
		}
	}
	return ""
}
