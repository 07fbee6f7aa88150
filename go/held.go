package vilgoued

import "sync"

// HeldWatch is a watch that the bucket holds, under its lock: what it has still to hand out refuses a compaction, so it never lags. At
// most 64 are open at a time.
type HeldWatch struct {
	bucket *Bucket
	number uint64
	lock   sync.Mutex
	room   *room
}

// Hold opens a held watch. ErrBadFilter, ErrOptionsClash, ErrTooManyWatches.
func (b *Bucket) Hold(keys string, opts ...WatchOpt) (*HeldWatch, error) {
	given := watchOptsOf(opts)
	start, err := given.start()
	if err != nil {
		return nil, err
	}
	number, err := b.shared.watch(keys, start, given)
	if err != nil {
		return nil, err
	}
	return &HeldWatch{bucket: b, number: number, room: newRoom()}, nil
}

// Number is its number, from 1, by which WatchBehind names it.
func (w *HeldWatch) Number() uint64 { return w.number }

// TryNext is the next entry, nil for the end marker; isThere is false where nothing is left.
func (w *HeldWatch) TryNext() (entry KeyValueEntry, isThere bool, err error) {
	w.lock.Lock()
	defer w.lock.Unlock()
	found, isThere, err := w.bucket.takenHeld(w.number, w.room)
	if found == nil {
		return nil, isThere, err
	}
	return found, isThere, err
}

// Stop ends it, and tells how many items it has handed out, the end marker among them. ErrNoSuchWatch.
func (w *HeldWatch) Stop() (handed uint64, err error) { return w.bucket.shared.stop(w.number) }
