package vilgoued_test

import (
	"context"
	"errors"
	"fmt"
	"sync"
	"testing"

	. "vilgoued"
)

func TestABatchIsMadeInOneStepAndHandedOutWriteByWrite(t *testing.T) {
	b := open(t, KeyValueConfig{History: 2})
	follower, err := b.Follow(AllKeys, UpdatesOnly())
	refusedAs(t, err, nil)
	defer follower.Close()
	var batch Batch
	value := []byte("80")
	batch.Put("app.port", value)
	value[0] = 'x'
	batch.Create("db", nil)
	batch.Update("app.port", []byte("81"), 1)
	batch.Delete("db")
	batch.Purge("db", LastRevision(4))
	batch.Delete("app.port", LastRevision(3))
	batch.Purge("app.port")
	batch.PutString("app.port", "82")
	same(t, batch.Len(), 8)
	first, err := b.Write(&batch)
	refusedAs(t, err, nil)
	same(t, []any{first, batch.Len()}, "[1 0]")
	for _, wanted := range []string{
		`app.port Put 1 2 "80"`, `db Put 2 0 ""`, `app.port Put 3 2 "81"`, "db Delete 4 0 nil", "db Purge 5 0 nil",
		"app.port Delete 6 0 nil", "app.port Purge 7 0 nil", `app.port Put 8 2 "82"`,
	} {
		entry, err := follower.Next(context.Background())
		refusedAs(t, err, nil)
		same(t, shown(entry), wanted)
	}
	first, err = b.Write(&batch)
	refusedAs(t, err, nil)
	same(t, first, 8)
}

func TestABatchIsRefusedForOneOfItsWritesAndChangesNothing(t *testing.T) {
	b := open(t, KeyValueConfig{MaxValueSize: 8})
	put(t, b, "a", "1")
	for _, it := range []struct {
		second func(batch *Batch)
		wanted error
	}{
		{func(batch *Batch) { batch.Create("a", []byte("3")) }, ErrKeyExists},
		{func(batch *Batch) { batch.Update("a", []byte("3"), 1) }, WrongLastRevision{2}},
		{func(batch *Batch) { batch.Delete("b", LastRevision(1)) }, WrongLastRevision{0}},
		{func(batch *Batch) { batch.Purge("a", LastRevision(1)) }, WrongLastRevision{2}},
		{func(batch *Batch) { batch.PutString("a", "123456789") }, ErrValueTooLarge},
		{func(batch *Batch) { batch.Put("b", make([]byte, 1<<20+1)) }, ErrValueTooLarge},
		{func(batch *Batch) { batch.PutString("b..c", "3") }, ErrBadKey},
	} {
		var batch Batch
		batch.PutString("a", "2")
		it.second(&batch)
		_, err := b.Write(&batch)
		refusedAs(t, err, BatchRefused{1, it.wanted})
		same(t, []any{errors.Is(err, it.wanted), batch.Len()}, "[true 2]")
		numbers, err := b.Numbers()
		refusedAs(t, err, nil)
		same(t, numbers.Last, 1)
		batch.Reset()
		same(t, batch.Len(), 0)
	}
	var wrong WrongLastRevision
	err := error(BatchRefused{1, WrongLastRevision{2}})
	same(t, []any{errors.As(err, &wrong), wrong.Last, errors.Is(err, ErrWrongLastRevision)}, "[true 2 true]")
	same(t, err, "vilgoued: the key's last revision is 2 (write 1 of a batch)")
	refusedAs(t, b.Seal(), nil)
	var batch Batch
	batch.Delete("a")
	_, err = b.Write(&batch)
	refusedAs(t, err, BatchRefused{0, ErrSealed})
	b.Close()
	_, err = b.Write(&batch)
	refusedAs(t, err, ErrClosed)
	batch.Delete("")
	_, err = b.Write(&batch)
	refusedAs(t, err, ErrClosed)
	_, err = b.Write(new(Batch))
	refusedAs(t, err, ErrClosed)
}

func TestNobodySeesHalfOfABatch(t *testing.T) {
	const writers = 2
	writes := 5_000
	if testing.Short() {
		writes = 500
	}
	b := open(t, KeyValueConfig{})
	watcher, err := b.Watch(AllKeys, UpdatesOnly())
	refusedAs(t, err, nil)
	reader, err := b.Reader()
	refusedAs(t, err, nil)
	defer reader.Close()
	var all, done sync.WaitGroup
	for writer := 0; writer < writers; writer++ {
		done.Add(1)
		go func(writer int) {
			defer done.Done()
			var batch Batch
			for at := 0; at < writes; at++ {
				value := fmt.Sprintf("%d %d", writer, at)
				batch.PutString("left", value)
				batch.PutString("right", value)
				if first, err := b.Write(&batch); err != nil || first%2 != 1 {
					t.Error(first, err)
					return
				}
			}
		}(writer)
	}
	all.Add(1)
	go func() {
		defer all.Done()
		last, left := uint64(0), ""
		for it := range watcher.Updates() {
			last++
			if it.Revision() != last || it.Key() != []string{"right", "left"}[last%2] {
				t.Errorf("%s %d in the place of %d", it.Key(), it.Revision(), last)
			}
			if last%2 == 1 {
				left = string(it.Value())
			} else if left != string(it.Value()) {
				t.Errorf("%s beside %s", it.Value(), left)
			}
		}
		if last != uint64(2*writers*writes) {
			t.Errorf("%d entries", last)
		}
	}()
	for last := uint64(0); last < uint64(2*writers*writes) && !t.Failed(); {
		numbers, err := reader.Numbers()
		refusedAs(t, err, nil)
		last = numbers.Last
		same(t, last%2, 0)
		if last == 0 {
			continue
		}
		moment, err := b.Snapshot()
		refusedAs(t, err, nil)
		left, err := moment.Get("left")
		refusedAs(t, err, nil)
		right, err := moment.Get("right")
		refusedAs(t, err, nil)
		same(t, string(left.Value()), string(right.Value()))
		moment.Close()
	}
	done.Wait()
	refusedAs(t, b.Finish(), nil)
	all.Wait()
}
