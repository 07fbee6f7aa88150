package vilgoued_test

import (
	"context"
	"errors"
	"fmt"
	"sync"
	"testing"
	"time"

	. "vilgoued"
)

func TestEightWatchersLoseNothingOfAHundredThousandWritesOfFour(t *testing.T) {
	const writers, watchers = 4, 8
	writes := 25_000
	if testing.Short() {
		writes = 1_000
	}
	leavesNone(t, func() {
		b := open(t, KeyValueConfig{})
		var all, done sync.WaitGroup
		written := make([]string, writers*writes+1)
		handed := [watchers][]string{}
		for at := range handed {
			watcher, err := b.Watch("writer.>", UpdatesOnly())
			refusedAs(t, err, nil)
			all.Add(1)
			go func(at int) {
				defer all.Done()
				handed[at] = []string{""}
				for it := range watcher.Updates() {
					if it.Revision() != uint64(len(handed[at])) {
						t.Errorf("revision %d in the place of %d", it.Revision(), len(handed[at]))
					}
					handed[at] = append(handed[at], it.Key()+" "+string(it.Value()))
				}
				if err := watcher.Err(); err != nil {
					t.Error(err)
				}
			}(at)
		}
		for writer := 0; writer < writers; writer++ {
			done.Add(1)
			go func(writer int) {
				defer done.Done()
				for at := 0; at < writes; at++ {
					key, value := fmt.Sprintf("writer.%d.%d", writer, at%100), fmt.Sprintf("%d %d", writer, at)
					revision, err := b.PutString(key, value)
					if err != nil {
						t.Error(err)
						return
					}
					written[revision] = key + " " + value
				}
			}(writer)
		}
		done.Wait()
		refusedAs(t, b.Finish(), nil)
		all.Wait()
		for _, one := range handed {
			if len(one) != len(written) {
				t.Fatalf("%d of %d", len(one), len(written))
			}
			for at, it := range written {
				if one[at] != it {
					t.Fatalf("%q in the place of %q", one[at], it)
				}
			}
		}
	})
}

func TestABucketMayBeClosedWhileOthersWriteReadAndWait(t *testing.T) {
	leavesNone(t, func() {
		for range [20]int{} {
			b := open(t, KeyValueConfig{})
			var all sync.WaitGroup
			each := func(call func() error) {
				all.Add(1)
				go func() {
					defer all.Done()
					for {
						if err := call(); errors.Is(err, ErrClosed) {
							return
						}
					}
				}()
			}
			for range [2]int{} {
				follower, err := b.Follow(">")
				refusedAs(t, err, nil)
				defer follower.Close()
				reader, err := b.Reader()
				refusedAs(t, err, nil)
				defer reader.Close()
				each(func() error { _, err := b.PutString("a", "1"); return err })
				each(func() error { _, err := b.Get("a"); return err })
				each(func() error { _, err := reader.Get("a"); return err })
				each(func() error { _, err := follower.Next(context.Background()); return err })
			}
			time.Sleep(3 * time.Millisecond)
			b.Close()
			all.Wait()
		}
	})
}
