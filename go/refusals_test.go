package vilgoued_test

import (
	"context"
	"errors"
	"strings"
	"testing"

	. "vilgoued"
)

func TestABucketOfABadNameIsRefused(t *testing.T) {
	for _, name := range []string{"", "a.b", "a b", strings.Repeat("a", 65)} {
		_, err := CreateKeyValue(&KeyValueConfig{Bucket: name})
		refusedAs(t, err, ErrBadBucket)
	}
}

func TestNumbersOutsideTheirLimitsAreRefused(t *testing.T) {
	for _, cfg := range []KeyValueConfig{
		{Bucket: "a", History: 65}, {Bucket: "a", MaxValueSize: 1<<20 + 1}, {Bucket: "a", WriteLimit: 1_000_001},
		{Bucket: "a", RevisionLimit: 1 << 32},
	} {
		_, err := CreateKeyValue(&cfg)
		refusedAs(t, err, ErrBadConfig)
	}
}

func TestATextThatIsNoKeyIsRefusedByEveryCall(t *testing.T) {
	b := open(t, KeyValueConfig{})
	for _, key := range []string{"", ".", "a..b", "a*", ">", "ä", "a\x00b", "a b", strings.Repeat("k", 256)} {
		_, err := b.PutString(key, "1")
		refusedAs(t, err, ErrBadKey)
		_, err = b.Create(key, []byte("1"))
		refusedAs(t, err, ErrBadKey)
		_, err = b.Update(key, nil, 0)
		refusedAs(t, err, ErrInvalidKey)
		refusedAs(t, b.Delete(key), ErrBadKey)
		refusedAs(t, b.Purge(key), ErrBadKey)
		_, err = b.Get(key)
		refusedAs(t, err, ErrBadKey)
		_, err = b.GetRevision(key, 1)
		refusedAs(t, err, ErrBadKey)
		_, err = b.History(key)
		refusedAs(t, err, ErrBadKey)
	}
	same(t, put(t, b, strings.Repeat("k", 255), "1"), 1)
}

func TestATextThatIsNoFilterIsRefusedByEveryCall(t *testing.T) {
	b := open(t, KeyValueConfig{})
	for _, filters := range []string{"", ",", "a,", "a..b", "a*", "a.>.b", strings.Repeat("a,", 16) + "a"} {
		_, err := b.Watch(filters)
		refusedAs(t, err, ErrBadFilter)
		_, err = b.Follow(filters)
		refusedAs(t, err, ErrBadFilter)
		_, err = b.Hold(filters)
		refusedAs(t, err, ErrBadFilter)
		_, err = b.KeysMatching(filters)
		refusedAs(t, err, ErrBadFilter)
	}
	_, err := b.Watch("a", IncludeHistory(), UpdatesOnly())
	refusedAs(t, err, ErrOptionsClash)
	_, err = b.Hold("a", FromRevision(1), IncludeHistory())
	refusedAs(t, err, ErrOptionsClash)
}

func TestAPutOverTheValueLimitIsRefused(t *testing.T) {
	b := open(t, KeyValueConfig{MaxValueSize: 8})
	_, err := b.PutString("a", "123456789")
	refusedAs(t, err, ErrValueTooLarge)
	same(t, put(t, b, "a", "12345678"), 1)
	_, err = open(t, KeyValueConfig{MaxValueSize: -1}).PutString("a", "1")
	refusedAs(t, err, ErrValueTooLarge)
}

func TestACreateOfAKeyThatHasAValueAndAWriteAtAnotherRevisionAreRefused(t *testing.T) {
	b := open(t, KeyValueConfig{})
	_, err := b.Create("a", []byte("1"))
	refusedAs(t, err, nil)
	_, err = b.Create("a", []byte("2"))
	refusedAs(t, err, ErrKeyExists)
	_, err = b.Update("a", []byte("2"), 7)
	refusedAs(t, err, WrongLastRevision{1})
	refusedAs(t, b.Delete("a", LastRevision(7)), WrongLastRevision{1})
	refusedAs(t, b.Purge("a", LastRevision(0)), WrongLastRevision{1})
	if !errors.Is(err, ErrWrongLastRevision) || errors.Is(err, ErrKeyExists) {
		t.Fatal("a refusal with its data is of its code")
	}
	var wrong WrongLastRevision
	if !errors.As(err, &wrong) || wrong.Last != 1 {
		t.Fatal("a refusal has its data")
	}
	revision, err := b.Update("a", []byte("2"), wrong.Last)
	refusedAs(t, err, nil)
	refusedAs(t, b.Delete("a", LastRevision(revision)), nil)
	_, err = b.Get("a")
	refusedAs(t, err, ErrKeyNotFound)
	_, err = b.GetRevision("a", 0)
	refusedAs(t, err, ErrKeyNotFound)
	_, err = b.History("b")
	refusedAs(t, err, ErrKeyNotFound)
}

func TestAFullAndASealedBucketRefuseWrites(t *testing.T) {
	b := open(t, KeyValueConfig{WriteLimit: 2})
	put(t, b, "a", "1")
	put(t, b, "a", "2")
	_, err := b.PutString("a", "3")
	refusedAs(t, err, ErrJournalFull)
	refusedAs(t, b.Compact(0), ErrBadFloor)
	refusedAs(t, b.Compact(3), ErrBadFloor)
	refusedAs(t, b.Compact(2), nil)
	same(t, put(t, b, "a", "3"), 3)
	refusedAs(t, b.Seal(), nil)
	_, err = b.PutString("a", "4")
	refusedAs(t, err, ErrSealed)
}

func TestAHeldWatchThatIsBehindRefusesACompaction(t *testing.T) {
	b := open(t, KeyValueConfig{})
	watch, err := b.Hold("a")
	refusedAs(t, err, nil)
	put(t, b, "a", "1")
	refusedAs(t, b.Compact(1), WatchBehind{watch.Number()})
	handed, err := watch.Stop()
	refusedAs(t, err, nil)
	same(t, handed, 0)
	_, err = watch.Stop()
	refusedAs(t, err, ErrNoSuchWatch)
	_, _, err = watch.TryNext()
	refusedAs(t, err, ErrNoSuchWatch)
	refusedAs(t, b.Compact(1), nil)
	for range [64]int{} {
		if _, err = b.Hold("a"); err != nil {
			t.Fatal(err)
		}
	}
	_, err = b.Hold("a")
	refusedAs(t, err, ErrTooManyWatches)
}

func TestAWatchThatLagsIsToldTheFloor(t *testing.T) {
	leavesNone(t, func() {
		b := open(t, KeyValueConfig{})
		put(t, b, "a", "1")
		follower, err := b.Follow(">", UpdatesOnly())
		refusedAs(t, err, nil)
		put(t, b, "a", "2")
		put(t, b, "a", "3")
		reach, err := b.Reach()
		refusedAs(t, err, nil)
		same(t, reach, 1)
		refusedAs(t, b.Compact(3), nil)
		for range [2]int{} {
			_, err = follower.Next(soon(t))
			refusedAs(t, err, Lagged{3})
		}
		follower.Close()
		_, err = follower.Next(soon(t))
		refusedAs(t, err, ErrClosed)
		refusedAs(t, follower.Stop(), ErrNoSuchWatch)
		follower.Close()

		// A watcher that lags: nobody reads what it sends, so it stands still.
		watcher, err := b.Watch(">")
		refusedAs(t, err, nil)
		for at := 0; at < 1000; at++ {
			put(t, b, "a", "4")
		}
		refusedAs(t, b.Compact(1003), nil)
		put(t, b, "a", "5")
		for range watcher.Updates() {
		}
		if err := watcher.Err(); err != (Lagged{1003}) {
			t.Fatal(err)
		}
	})
}

func TestAClosedBucketRefusesEveryCall(t *testing.T) {
	b := open(t, KeyValueConfig{})
	put(t, b, "a", "1")
	reader, err := b.Reader()
	refusedAs(t, err, nil)
	moment, err := b.Snapshot()
	refusedAs(t, err, nil)
	follower, err := b.Follow(">")
	refusedAs(t, err, nil)
	defer follower.Close()
	held, err := b.Hold(">")
	refusedAs(t, err, nil)
	b.Close()
	b.Close()
	_, err = b.PutString("", "2")
	refusedAs(t, err, ErrClosed)
	_, err = b.Create("a", nil)
	refusedAs(t, err, ErrClosed)
	_, err = b.Update("a", nil, 1)
	refusedAs(t, err, ErrClosed)
	refusedAs(t, b.Delete("a"), ErrClosed)
	refusedAs(t, b.Purge("a"), ErrClosed)
	_, err = b.Get("a")
	refusedAs(t, err, ErrClosed)
	_, err = b.GetRevision("a", 1)
	refusedAs(t, err, ErrClosed)
	_, err = b.Keys()
	refusedAs(t, err, ErrClosed)
	_, err = b.History("a")
	refusedAs(t, err, ErrClosed)
	_, err = b.Status()
	refusedAs(t, err, ErrClosed)
	refusedAs(t, b.Seal(), ErrClosed)
	refusedAs(t, b.Compact(1), ErrClosed)
	_, err = b.Reach()
	refusedAs(t, err, ErrClosed)
	refusedAs(t, b.Finish(), ErrClosed)
	_, err = b.WatchAll()
	refusedAs(t, err, ErrClosed)
	_, err = b.Hold(">")
	refusedAs(t, err, ErrClosed)
	_, err = b.Reader()
	refusedAs(t, err, ErrClosed)
	_, err = reader.Get("a")
	refusedAs(t, err, ErrClosed)
	reader.Close()
	reader.Close()
	_, err = reader.Get("a")
	refusedAs(t, err, ErrClosed)
	_, err = follower.Next(soon(t))
	refusedAs(t, err, ErrClosed)
	_, _, err = held.TryNext()
	refusedAs(t, err, ErrClosed)
	// What was accepted by a moment stays, until it is closed.
	it, err := moment.Get("a")
	refusedAs(t, err, nil)
	same(t, shown(it), `a Put 1 1 "1"`)
	moment.Close()
	_, err = moment.Get("a")
	refusedAs(t, err, ErrClosed)
	_, err = moment.History("a")
	refusedAs(t, err, ErrClosed)
}

func TestAContextThatHasEndedRefusesAWatch(t *testing.T) {
	b := open(t, KeyValueConfig{})
	ctx, cancel := context.WithCancel(context.Background())
	cancel()
	_, err := b.WatchAll(Context(ctx))
	refusedAs(t, err, context.Canceled)
	_, err = b.Keys(Context(ctx))
	refusedAs(t, err, context.Canceled)
	_, err = b.History("a", Context(ctx))
	refusedAs(t, err, context.Canceled)
}

func TestEachRefusalHasANameAndAText(t *testing.T) {
	same(t, ErrBadKey.Name(), "BadKey")
	same(t, Refusal(99).Name(), "Refusal99")
	for _, refusal := range []error{ErrOutOfMemory, Refusal(99), Lagged{3}, WatchBehind{1}, WrongLastRevision{7}} {
		if !strings.HasPrefix(refusal.Error(), "vilgoued: ") {
			t.Fatal(refusal)
		}
	}
	same(t, Lagged{3}, "vilgoued: what follows lags behind a compaction, whose floor is 3")
}
