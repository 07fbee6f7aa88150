package vilgoued

import (
	"context"
	"os"
	"runtime"
	"sync"
	"syscall"
	"time"
)

// Follower is a watch that a goroutine asks for its next entry. It goes on by itself, and no thread and no goroutine waits for it.
type Follower struct {
	bucket *Bucket
	at     *handle
	room   *room
	// A descriptor of our own of the same event, on which Go's runtime waits.
	file *os.File
	conn syscall.RawConn
	// Held by the one call that uses the handle.
	turn turn
	// Guards a stop against the close.
	life   sync.Mutex
	isOpen bool
}

// Follow opens a follower of the keys that a filter matches, or one of up to 16 filters with a comma between two. Its context is that
// of each Next. ErrBadFilter, ErrOptionsClash, ErrNoDescriptor.
func (b *Bucket) Follow(keys string, opts ...WatchOpt) (*Follower, error) {
	return b.follow(keys, watchOptsOf(opts))
}

func (b *Bucket) follow(keys string, opts *watchOpts) (*Follower, error) {
	start, err := opts.start()
	if err != nil {
		return nil, err
	}
	at, err := newHandle(closeFollower)
	if err != nil {
		return nil, err
	}
	fd, err := b.shared.follow(keys, start, opts, at)
	if err != nil {
		return nil, err
	}
	own, err := duplicate(fd)
	if err != nil {
		at.close(at.at)
		runtime.KeepAlive(at)
		return nil, ErrNoDescriptor
	}
	f := &Follower{bucket: b, at: at, room: newRoom(), file: own, turn: newTurn(), isOpen: true}
	if f.conn, err = own.SyscallConn(); err != nil {
		f.Close()
		return nil, ErrNoDescriptor
	}
	return f, nil
}

// A file of our own for a descriptor that the library owns.
func duplicate(fd uintptr) (*os.File, error) {
	own, _, errno := syscall.Syscall(syscall.SYS_FCNTL, fd, syscall.F_DUPFD_CLOEXEC, 0)
	if errno != 0 {
		return nil, errno
	}
	return os.NewFile(own, "follower"), nil
}

// Next is the next entry, or nil for the end marker. Where there is none it waits for one, until the context ends: then the error is
// that of the context, and nothing is lost. Lagged; ErrClosed where no entry comes any more, as the bucket was finished and all was
// handed out, or it was closed, or the follower was stopped.
func (f *Follower) Next(ctx context.Context) (KeyValueEntry, error) {
	if err := ctx.Err(); err != nil {
		return nil, err
	}
	if err := f.turn.take(ctx); err != nil {
		return nil, err
	}
	found, isThere, err := f.now()
	if !isThere && err == nil {
		found, err = f.wait(ctx)
	}
	f.turn.give()
	if found == nil {
		return nil, err
	}
	return found, err
}

// TryNext is the same where there is an entry now; else isThere is false.
func (f *Follower) TryNext() (entry KeyValueEntry, isThere bool, err error) {
	_ = f.turn.take(context.Background())
	found, isThere, err := f.now()
	f.turn.give()
	if found == nil {
		return nil, isThere, err
	}
	return found, isThere, err
}

func (f *Follower) now() (*entry, bool, error) { return f.bucket.takenNow(f.at, f.room) }

// Waits for an entry.
func (f *Follower) wait(ctx context.Context) (found *entry, err error) {
	if ctx.Done() != nil {
		defer f.endWith(ctx)()
	}
	isThere := false
	waited := f.conn.Read(func(uintptr) bool {
		found, isThere, err = f.now()
		return isThere || err != nil
	})
	switch {
	case isThere || err != nil:
		return found, err
	case ctx.Err() != nil:
		return nil, ctx.Err()
	case waited != nil:
		return nil, ErrClosed
	}
	return nil, nil
}

// Ends a wait with a context, until what it answers is called: then the goroutine is gone.
func (f *Follower) endWith(ctx context.Context) func() {
	over, gone := make(chan struct{}), make(chan struct{})
	go func() {
		defer close(gone)
		select {
		case <-ctx.Done():
			_ = f.file.SetReadDeadline(time.Unix(1, 0))
		case <-over:
		}
	}()
	return func() {
		close(over)
		<-gone
		_ = f.file.SetReadDeadline(time.Time{})
	}
}

// Stop ends the follower: who waits for it is woken, and each Next is ErrClosed. ErrNoSuchWatch where it was closed.
func (f *Follower) Stop() error {
	f.life.Lock()
	defer f.life.Unlock()
	if !f.isOpen {
		return ErrNoSuchWatch
	}
	f.at.stopFollower()
	return nil
}

// Close stops and frees the follower. It waits for the Next that others are in, which it wakes.
func (f *Follower) Close() {
	if f.Stop() != nil {
		return
	}
	_ = f.turn.take(context.Background())
	f.life.Lock()
	if f.isOpen {
		f.isOpen = false
		f.at.close(f.at.at)
		runtime.KeepAlive(f.at)
		_ = f.file.Close()
	}
	f.life.Unlock()
	f.turn.give()
}
