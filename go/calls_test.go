package vilgoued_test

import (
	"bytes"
	"fmt"
	"testing"

	. "vilgoued"
)

// A bucket with some writes.
func written(t *testing.T) *Bucket {
	b := open(t, KeyValueConfig{History: 2})
	for _, value := range []string{"1", "2", "3"} {
		put(t, b, "app.port", value)
	}
	put(t, b, "app.host", "localhost")
	refusedAs(t, b.Delete("app.host"), nil)
	put(t, b, "db", "x")
	return b
}

func TestReadsOfABucketAReaderAndASnapshotAgree(t *testing.T) {
	b := written(t)
	reader, err := b.Reader()
	refusedAs(t, err, nil)
	defer reader.Close()
	moment, err := b.Snapshot()
	refusedAs(t, err, nil)
	defer moment.Close()
	type reads interface {
		Get(key string) (KeyValueEntry, error)
		GetRevision(key string, revision uint64) (KeyValueEntry, error)
		KeysMatching(filter string) ([]string, error)
		Numbers() (*Status, error)
	}
	for _, it := range []reads{b, reader, moment} {
		found, err := it.Get("app.port")
		refusedAs(t, err, nil)
		same(t, shown(found), `app.port Put 3 1 "3"`)
		same(t, found.Bucket(), "settings")
		same(t, found.Created().IsZero(), true)
		same(t, found.Delta(), 0)
		found, err = it.GetRevision("app.port", 2)
		refusedAs(t, err, nil)
		same(t, shown(found), `app.port Put 2 1 "2"`)
		_, err = it.GetRevision("app.port", 1)
		refusedAs(t, err, ErrKeyNotFound)
		_, err = it.Get("app.host")
		refusedAs(t, err, ErrKeyNotFound)
		keys, err := it.KeysMatching("app.>")
		refusedAs(t, err, nil)
		same(t, keys, []string{"app.port"})
		keys, err = it.KeysMatching("db,app.port,>")
		refusedAs(t, err, nil)
		same(t, keys, []string{"app.port", "db"})
		numbers, err := it.Numbers()
		refusedAs(t, err, nil)
		same(t, *numbers, Status(*numbers))
		same(t, []any{numbers.Bucket(), numbers.History(), numbers.Last, numbers.Stored, numbers.Values()}, "[settings 2 6 6 5]")
	}
	keys, err := b.Keys()
	refusedAs(t, err, nil)
	same(t, keys, []string{"app.port", "db"})
	history, err := b.History("app.host")
	refusedAs(t, err, nil)
	same(t, shown(history[0])+", "+shown(history[1]), `app.host Put 4 9 "localhost", app.host Delete 5 0 nil`)
	status, err := b.Status()
	refusedAs(t, err, nil)
	same(t, []any{status.TTL(), status.BackingStore(), status.Bytes()}, "[0s Memory 0]")
	refusedAs(t, b.Purge("app.port"), nil)
	_, err = reader.Get("app.port")
	refusedAs(t, err, ErrKeyNotFound)
	_, err = moment.Get("app.port")
	refusedAs(t, err, nil)
}

func TestWatchesBeginWithWhatIsAskedFor(t *testing.T) {
	b := written(t)
	port, host := `app.port Put 3 1 "3"`, "app.host Delete 5 0 nil"
	for _, it := range []struct {
		opts   []WatchOpt
		wanted []string
	}{
		{nil, []string{port, host, "nil"}},
		{[]WatchOpt{IgnoreDeletes()}, []string{port, "nil"}},
		{[]WatchOpt{UpdatesOnly()}, []string{}},
		{[]WatchOpt{FromRevision(4), MetaOnly()}, []string{"app.host Put 4 9 nil", host, "nil"}},
		{[]WatchOpt{IncludeHistory()}, []string{`app.port Put 2 1 "2"`, port, `app.host Put 4 9 "localhost"`, host, "nil"}},
	} {
		follower, err := b.Follow("app.>", it.opts...)
		refusedAs(t, err, nil)
		held, err := b.Hold("app.>", it.opts...)
		refusedAs(t, err, nil)
		for _, next := range []func() (KeyValueEntry, bool, error){follower.TryNext, held.TryNext} {
			found := []string{}
			for {
				entry, isThere, err := next()
				refusedAs(t, err, nil)
				if !isThere {
					break
				}
				found = append(found, shown(entry))
			}
			same(t, found, it.wanted)
		}
		follower.Close()
	}
}

func TestValuesOfAllSizesComeAsTheyWerePut(t *testing.T) {
	b := open(t, KeyValueConfig{History: 64})
	follower, err := b.Follow(">")
	refusedAs(t, err, nil)
	defer follower.Close()
	_, err = follower.Next(soon(t))
	refusedAs(t, err, nil)
	sizes := []int{0, 1, 64, 65, 1023, 1024, 1025, 5000, 1 << 20}
	for _, size := range sizes {
		value := bytes.Repeat([]byte{7}, size)
		_, err := b.Put("a", value)
		refusedAs(t, err, nil)
		for range [2]int{} {
			found, err := b.Get("a")
			refusedAs(t, err, nil)
			if found.Value() == nil || !bytes.Equal(found.Value(), value) {
				t.Fatal("a get of ", size)
			}
			// What is added to it changes no other.
			_ = append(found.Value(), 8)
		}
		found, err := follower.Next(soon(t))
		refusedAs(t, err, nil)
		if !bytes.Equal(found.Value(), value) {
			t.Fatal("an item of ", size)
		}
	}
	history, err := b.History("a")
	refusedAs(t, err, nil)
	for at, size := range sizes {
		same(t, len(history[at].Value()), size)
	}
}

func TestMoreKeysThanASmallRoomHoldsComeWhole(t *testing.T) {
	b := open(t, KeyValueConfig{})
	wanted := []string{}
	for at := 0; at < 1000; at++ {
		wanted = append(wanted, fmt.Sprintf("device.%d.state", at))
		put(t, b, wanted[at], "")
	}
	keys, err := b.Keys()
	refusedAs(t, err, nil)
	same(t, keys, wanted)
	keys, err = b.KeysMatching("none.>")
	refusedAs(t, err, nil)
	same(t, len(keys), 0)
}
