package vilgoued_test

import (
	"context"
	"testing"
	"time"

	. "vilgoued"
)

func TestAWaitEndsWithItsContextAndLosesNothing(t *testing.T) {
	leavesNone(t, func() {
		b := open(t, KeyValueConfig{})
		follower, err := b.Follow(">", UpdatesOnly())
		refusedAs(t, err, nil)
		defer follower.Close()
		for at := 1; at <= 20; at++ {
			ctx, cancel := context.WithTimeout(context.Background(), 2*time.Millisecond)
			_, err := follower.Next(ctx)
			refusedAs(t, err, context.DeadlineExceeded)
			cancel()
			_, err = follower.Next(ctx)
			if err == nil {
				t.Fatal("a context that has ended lets nothing in")
			}
			put(t, b, "a", "1")
			it, err := follower.Next(soon(t))
			refusedAs(t, err, nil)
			same(t, it.Revision(), at)
		}
	})
}

func TestAWaitEndsWithAnEntry(t *testing.T) {
	b := open(t, KeyValueConfig{})
	follower, err := b.Follow("a", UpdatesOnly())
	refusedAs(t, err, nil)
	defer follower.Close()
	for at := 0; at < 200; at++ {
		go func(sleeps bool) {
			if sleeps {
				time.Sleep(time.Millisecond)
			}
			_, _ = b.PutString("b", "0")
			_, _ = b.PutString("a", "1")
		}(at%10 == 0)
		it, err := follower.Next(soon(t))
		refusedAs(t, err, nil)
		same(t, it.Key(), "a")
	}
}

func TestOthersEndAWait(t *testing.T) {
	leavesNone(t, func() {
		for _, end := range []func(*Bucket, *Follower){
			func(b *Bucket, _ *Follower) { _ = b.Finish() },
			func(b *Bucket, _ *Follower) { b.Close() },
			func(_ *Bucket, f *Follower) { _ = f.Stop() },
			func(_ *Bucket, f *Follower) { f.Close() },
		} {
			b := open(t, KeyValueConfig{})
			follower, err := b.Follow("a", UpdatesOnly())
			refusedAs(t, err, nil)
			ended := make(chan error)
			for range [3]int{} {
				go func() {
					_, err := follower.Next(context.Background())
					ended <- err
				}()
			}
			time.Sleep(10 * time.Millisecond)
			end(b, follower)
			for range [3]int{} {
				refusedAs(t, <-ended, ErrClosed)
			}
			follower.Close()
		}
	})
}

func TestAWatcherThatIsStoppedHoldsNoCompactionBack(t *testing.T) {
	b := open(t, KeyValueConfig{})
	watcher, err := b.WatchAll()
	refusedAs(t, err, nil)
	refusedAs(t, watcher.Stop(), nil)
	refusedAs(t, watcher.Stop(), ErrNoSuchWatch)
	refusedAs(t, watcher.Err(), nil)
	put(t, b, "a", "1")
	reach, err := b.Reach()
	refusedAs(t, err, nil)
	same(t, reach, 1)
}

func TestWatchersSendANilBehindWhatThereWas(t *testing.T) {
	leavesNone(t, func() {
		b := open(t, KeyValueConfig{})
		put(t, b, "app.port", "80")
		watcher, err := b.Watch("app.*")
		refusedAs(t, err, nil)
		put(t, b, "app.host", "localhost")
		put(t, b, "db", "x")
		refusedAs(t, b.Delete("app.port"), nil)
		refusedAs(t, b.Finish(), nil)
		found := []string{}
		for it := range watcher.Updates() {
			found = append(found, shown(it))
		}
		same(t, found, []string{`app.port Put 1 2 "80"`, "nil", `app.host Put 2 9 "localhost"`, "app.port Delete 4 0 nil"})
		refusedAs(t, watcher.Err(), nil)
		refusedAs(t, watcher.Context().Err(), nil)
	})
}

func TestEachEndOfAWatcherLeavesNoGoroutineBehind(t *testing.T) {
	leavesNone(t, func() {
		for _, reads := range []bool{true, false} {
			for _, end := range []func(*Bucket, KeyWatcher, context.CancelFunc){
				func(b *Bucket, w KeyWatcher, _ context.CancelFunc) { b.Close() },
				func(_ *Bucket, w KeyWatcher, _ context.CancelFunc) { refusedAs(t, w.Stop(), nil) },
				func(_ *Bucket, _ KeyWatcher, cancel context.CancelFunc) { cancel() },
			} {
				b := open(t, KeyValueConfig{})
				ctx, cancel := context.WithCancel(context.Background())
				watcher, err := b.WatchAll(Context(ctx))
				refusedAs(t, err, nil)
				if !reads {
					for at := 0; at < 300; at++ {
						put(t, b, "a", "1")
					}
				}
				time.Sleep(5 * time.Millisecond)
				end(b, watcher, cancel)
				if !reads {
					// Who does not read what was sent still ends it by a stop.
					_ = watcher.Stop()
				}
				for range watcher.Updates() {
				}
				if err := watcher.Err(); err != nil && err != context.Canceled {
					t.Fatal(err)
				}
				cancel()
			}
		}
	})
}
