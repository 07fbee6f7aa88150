package vilgoued

import (
	"context"
	"sync"
)

// KeyWatcher is a watch that sends its entries by a channel.
type KeyWatcher interface {
	// Context is the one that the watch was opened with.
	Context() context.Context
	// Updates is the channel: the entries of the moment when the watch was opened, nil, and each later one. It is closed where none
	// comes any more: the watch was stopped, its context ended, or the bucket was finished or closed, or the watch lags.
	Updates() <-chan KeyValueEntry
	// Stop ends the watch. Its goroutine is gone when this returns. ErrNoSuchWatch where it was stopped already.
	Stop() error
	// Err is why the channel was closed: Lagged, the context's error, or nil.
	Err() error
}

// How many entries wait in the channel.
const ahead = 64

type watcher struct {
	follower *Follower
	ctx      context.Context
	stop     context.CancelFunc
	updates  chan KeyValueEntry
	ended    chan struct{}
	once     sync.Once
	err      error
}

// Watch watches the keys that a filter matches, or one of up to 16 filters with a comma between two. It loses nothing, however slowly
// it is read: it is Lagged where a compaction went further than it has come. ErrBadFilter, ErrOptionsClash, ErrNoDescriptor.
func (b *Bucket) Watch(keys string, opts ...WatchOpt) (KeyWatcher, error) {
	given := watchOptsOf(opts)
	if err := given.ctx.Err(); err != nil {
		return nil, err
	}
	follower, err := b.follow(keys, given)
	if err != nil {
		return nil, err
	}
	w := &watcher{
		follower: follower, ctx: given.ctx, updates: make(chan KeyValueEntry, ahead), ended: make(chan struct{}),
	}
	ctx, stop := context.WithCancel(given.ctx)
	w.stop = stop
	go w.run(ctx)
	return w, nil
}

// WatchAll watches all keys.
func (b *Bucket) WatchAll(opts ...WatchOpt) (KeyWatcher, error) { return b.Watch(AllKeys, opts...) }

func (w *watcher) run(ctx context.Context) {
	defer close(w.ended)
	defer close(w.updates)
	defer w.stop()
	defer w.follower.Close()
	defer stopWith(ctx, w.follower)()
	for {
		found, err := w.follower.Next(context.Background())
		if err != nil {
			if w.err = w.ctx.Err(); w.err == nil && err != ErrClosed {
				w.err = err
			}
			return
		}
		select {
		case w.updates <- found:
		case <-ctx.Done():
			w.err = w.ctx.Err()
			return
		}
	}
}

// Stops a follower when a context ends, until what it answers is called: then the goroutine is gone.
func stopWith(ctx context.Context, follower *Follower) func() {
	over, gone := make(chan struct{}), make(chan struct{})
	go func() {
		defer close(gone)
		select {
		case <-ctx.Done():
			_ = follower.Stop()
		case <-over:
		}
	}()
	return func() {
		close(over)
		<-gone
	}
}

func (w *watcher) Context() context.Context { return w.ctx }

func (w *watcher) Updates() <-chan KeyValueEntry { return w.updates }

func (w *watcher) Stop() error {
	err := error(ErrNoSuchWatch)
	w.once.Do(func() {
		err = nil
		w.stop()
	})
	<-w.ended
	return err
}

func (w *watcher) Err() error {
	<-w.ended
	return w.err
}
