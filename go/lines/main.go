// Does on a bucket what lines ask, and answers each in one line, so that a test in another language drives this package. Texts stand
// as `x` and their bytes in hexadecimal.
package main

import (
	"bufio"
	"encoding/hex"
	"errors"
	"fmt"
	"os"
	"strconv"
	"strings"
	"vilgoued"
)

var ops = map[vilgoued.KeyValueOp]string{
	vilgoued.KeyValuePut: "PUT", vilgoued.KeyValueDelete: "DEL", vilgoued.KeyValuePurge: "PURGE",
}

type session struct {
	bucket  *vilgoued.Bucket
	watches map[string]*vilgoued.HeldWatch
}

func must[T any](it T, err error) T {
	if err != nil {
		panic(err)
	}
	return it
}

func bytesOf(word string) []byte { return must(hex.DecodeString(word[1:])) }

func textOf(word string) string { return string(bytesOf(word)) }

func numberOf(word string) uint64 { return must(strconv.ParseUint(word, 10, 64)) }

func worded(text []byte) string { return "x" + hex.EncodeToString(text) }

func shown(it vilgoued.KeyValueEntry) string {
	value := "-"
	if it.Value() != nil {
		value = worded(it.Value())
	}
	return fmt.Sprintf("%s %s %d %d %s", worded([]byte(it.Key())), ops[it.Operation()], it.Revision(), it.Size(), value)
}

func (s *session) told(words []string) (string, error) {
	b := s.bucket
	var revision uint64
	var err error
	switch words[0] {
	case "put":
		revision, err = b.Put(textOf(words[1]), bytesOf(words[2]))
	case "create":
		revision, err = b.Create(textOf(words[1]), bytesOf(words[2]))
	case "update":
		revision, err = b.Update(textOf(words[1]), bytesOf(words[3]), numberOf(words[2]))
	case "delete":
		revision, err = b.DeleteRevision(textOf(words[1]), last(words[2:])...)
	case "purge":
		revision, err = b.PurgeRevision(textOf(words[1]), last(words[2:])...)
	case "batch":
		return s.batch(words[1:])
	default:
		return s.read(words)
	}
	return fmt.Sprint(revision), err
}

// Makes writes in one step, between two of which an & stands.
func (s *session) batch(words []string) (string, error) {
	it := &vilgoued.Batch{}
	if len(words) > 0 {
		for _, line := range strings.Split(strings.Join(words, " "), " & ") {
			gather(it, strings.Split(line, " "))
		}
	}
	count := uint64(it.Len())
	first, err := s.bucket.Write(it)
	return fmt.Sprint(first, first+count), err
}

func gather(to *vilgoued.Batch, words []string) {
	switch key := textOf(words[1]); words[0] {
	case "put":
		to.Put(key, bytesOf(words[2]))
	case "create":
		to.Create(key, bytesOf(words[2]))
	case "update":
		to.Update(key, bytesOf(words[3]), numberOf(words[2]))
	case "delete":
		to.Delete(key, last(words[2:])...)
	case "purge":
		to.Purge(key, last(words[2:])...)
	}
}

func last(words []string) []vilgoued.DeleteOpt {
	if len(words) == 0 {
		return nil
	}
	return []vilgoued.DeleteOpt{vilgoued.LastRevision(numberOf(words[0]))}
}

func (s *session) read(words []string) (string, error) {
	b := s.bucket
	switch words[0] {
	case "get":
		it, err := b.Get(textOf(words[1]))
		if len(words) > 2 {
			it, err = b.GetRevision(textOf(words[1]), numberOf(words[2]))
		}
		if errors.Is(err, vilgoued.ErrKeyNotFound) {
			return "empty", nil
		}
		if err != nil {
			return "", err
		}
		return shown(it), nil
	case "history":
		found, err := b.History(textOf(words[1]))
		all := make([]string, 0, len(found))
		for _, it := range found {
			all = append(all, shown(it))
		}
		if errors.Is(err, vilgoued.ErrKeyNotFound) {
			err = nil
		}
		return strings.Join(all, " "), err
	case "keys":
		found, err := b.KeysMatching(textOf(words[1]))
		for at, it := range found {
			found[at] = worded([]byte(it))
		}
		return strings.Join(found, " "), err
	case "status":
		it, err := b.Numbers()
		if err != nil {
			return "", err
		}
		sealed := 0
		if it.IsSealed {
			sealed = 1
		}
		return fmt.Sprint(it.History(), it.Last, it.Stored, it.Values(), it.Watches, sealed), nil
	case "seal":
		return "", b.Seal()
	case "compact":
		return "", b.Compact(numberOf(words[1]))
	}
	return s.watch(words)
}

func (s *session) watch(words []string) (string, error) {
	if words[0] == "watch" {
		opts := []vilgoued.WatchOpt{}
		switch words[2] {
		case "history":
			opts = append(opts, vilgoued.IncludeHistory())
		case "updates":
			opts = append(opts, vilgoued.UpdatesOnly())
		case "from":
			opts = append(opts, vilgoued.FromRevision(numberOf(words[3])))
		}
		if words[4] == "1" {
			opts = append(opts, vilgoued.IgnoreDeletes())
		}
		if words[5] == "1" {
			opts = append(opts, vilgoued.MetaOnly())
		}
		it, err := s.bucket.Hold(textOf(words[1]), opts...)
		if err != nil {
			return "", err
		}
		number := fmt.Sprint(it.Number())
		s.watches[number] = it
		return number, nil
	}
	it, isThere := s.watches[words[1]]
	if !isThere {
		return "", vilgoued.ErrNoSuchWatch
	}
	if words[0] == "stop" {
		handed, err := it.Stop()
		return fmt.Sprint(handed), err
	}
	found, isThere, err := it.TryNext()
	switch {
	case found != nil:
		return shown(found), err
	case isThere:
		return "marker", err
	}
	return "empty", err
}

func refused(err error) string {
	place := ""
	if it, isOfBatch := err.(vilgoued.BatchRefused); isOfBatch {
		place, err = fmt.Sprintf(" at %d", it.At), it.Err
	}
	var code vilgoued.Refusal
	if !errors.As(err, &code) {
		panic(err)
	}
	data := ""
	switch it := err.(type) {
	case vilgoued.WrongLastRevision:
		data = fmt.Sprintf(" { last: %d }", it.Last)
	case vilgoued.WatchBehind:
		data = fmt.Sprintf(" { watch: %d }", it.Watch)
	case vilgoued.Lagged:
		data = fmt.Sprintf(" { floor: %d }", it.Floor)
	}
	return fmt.Sprintf("no %d %s%s%s", code.Code(), code.Name(), data, place)
}

func main() {
	limits := os.Args[1:]
	bucket := must(vilgoued.CreateKeyValue(&vilgoued.KeyValueConfig{
		Bucket: "kv", History: uint8(numberOf(limits[0])), MaxValueSize: int32(numberOf(limits[1])),
		WriteLimit: numberOf(limits[2]), RevisionLimit: numberOf(limits[3]),
	}))
	defer bucket.Close()
	it := session{bucket, map[string]*vilgoued.HeldWatch{}}
	lines := bufio.NewScanner(os.Stdin)
	lines.Buffer(nil, 4<<20)
	out := bufio.NewWriter(os.Stdout)
	for lines.Scan() {
		told, err := it.told(strings.Split(lines.Text(), " "))
		if err != nil {
			told = refused(err)
		} else {
			told = strings.TrimRight("ok "+told, " ")
		}
		fmt.Fprintln(out, told)
		out.Flush()
	}
}
