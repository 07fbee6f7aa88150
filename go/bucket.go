// Package vilgoued is a key-value bucket in the memory of one process, with wildcard watches.
//
// The names are those of nats.go's KeyValue and KeyWatcher, so that code written for a bucket of NATS runs on this one. A watch is
// handed the entries of the moment when it was opened, a nil entry, and then each later matching change once and in order, however
// slowly it is read. The rules are those of docs/semantics.md.
package vilgoued

import "runtime"

// KeyValue is what nats.go has of a bucket and this one has too.
type KeyValue interface {
	Get(key string) (entry KeyValueEntry, err error)
	GetRevision(key string, revision uint64) (entry KeyValueEntry, err error)
	Put(key string, value []byte) (revision uint64, err error)
	PutString(key string, value string) (revision uint64, err error)
	Create(key string, value []byte) (revision uint64, err error)
	Update(key string, value []byte, last uint64) (revision uint64, err error)
	Delete(key string, opts ...DeleteOpt) error
	Purge(key string, opts ...DeleteOpt) error
	Watch(keys string, opts ...WatchOpt) (KeyWatcher, error)
	WatchAll(opts ...WatchOpt) (KeyWatcher, error)
	Keys(opts ...WatchOpt) ([]string, error)
	History(key string, opts ...WatchOpt) ([]KeyValueEntry, error)
	Bucket() string
	Status() (KeyValueStatus, error)
}

var _ KeyValue = (*Bucket)(nil)

// Bucket is a bucket, which any number of goroutines use at once. Each write holds its lock, and is published before it returns.
// Each call behind its Close is ErrClosed, and each may be ErrOutOfMemory.
type Bucket struct {
	name    *string
	shared  *handle
	dropped uint64
}

// CreateKeyValue opens a bucket with no writes, or that of a file. ErrBadBucket, ErrBadConfig; of a file ErrFileFault, FileDamaged,
// ErrFileBusy, ErrOtherBucket.
func CreateKeyValue(cfg *KeyValueConfig) (*Bucket, error) {
	limits := *cfg
	if limits.History == 0 {
		limits.History = 1
	}
	switch {
	case limits.MaxValueSize == 0:
		limits.MaxValueSize = 1 << 20
	case limits.MaxValueSize < 0:
		limits.MaxValueSize = 0
	}
	if limits.WriteLimit == 0 {
		limits.WriteLimit = 1_000_000
	}
	if limits.RevisionLimit == 0 {
		limits.RevisionLimit = 1<<32 - 1
	}
	shared, err := newHandle(closeBucket)
	if err != nil {
		return nil, err
	}
	name := limits.Bucket
	b := &Bucket{name: &name, shared: shared}
	if limits.Path == "" {
		err = shared.open(&limits)
	} else {
		b.dropped, err = shared.openFile(&limits)
	}
	if err != nil {
		return nil, err
	}
	return b, nil
}

// Dropped is how many bytes of a torn end were cut off the file when it was opened, which a crash had left.
func (b *Bucket) Dropped() uint64 { return b.dropped }

// Sync brings all that was accepted onto the disk; without a file there is nothing to bring. ErrFileFault, and from then on each write
// and each Sync: reads and watches go on.
func (b *Bucket) Sync() error { return b.shared.sync() }

// Checkpoint replaces the file by one that has what the bucket stores, and none of what led to it. It is written beside the file, under
// its name with .checkpoint behind it; a crash leaves the old file or the new one. ErrFileFault where this fails: before the new one has
// the name, the bucket goes on with the old one, and behind that it goes on no more, as behind a Sync that failed. Compact does this by
// itself where the file has more than twice the bytes. Without a file nothing happens.
func (b *Bucket) Checkpoint() error { return b.shared.checkpoint() }

// Bucket is its name.
func (b *Bucket) Bucket() string { return *b.name }

// Get is the latest entry of the key, where that is a put. ErrBadKey, ErrKeyNotFound.
func (b *Bucket) Get(key string) (KeyValueEntry, error) {
	room := spare.Get().(*small)
	it, err := b.get(ofBucket, b.shared, key, room.bytes[:])
	spare.Put(room)
	return it, err
}

// GetRevision is the retained put of the key that has this revision. ErrBadKey, ErrKeyNotFound.
func (b *Bucket) GetRevision(key string, revision uint64) (KeyValueEntry, error) {
	return b.getAt(ofBucket, b.shared, key, revision)
}

// Put gives the key the value. ErrBadKey, ErrValueTooLarge, ErrSealed, ErrJournalFull.
func (b *Bucket) Put(key string, value []byte) (revision uint64, err error) {
	return b.PutString(key, text(value))
}

// Create is a Put where the key has no value. ErrKeyExists.
func (b *Bucket) Create(key string, value []byte) (revision uint64, err error) {
	revision, err = b.shared.create(key, text(value))
	runtime.KeepAlive(value)
	return revision, err
}

// Update is a Put where last is the key's last revision, 0 where it was never written. WrongLastRevision.
func (b *Bucket) Update(key string, value []byte, last uint64) (revision uint64, err error) {
	revision, err = b.shared.update(key, text(value), last)
	runtime.KeepAlive(value)
	return revision, err
}

// PutString is a Put of a text.
func (b *Bucket) PutString(key string, value string) (revision uint64, err error) {
	return b.shared.put(key, value)
}

// Delete ends the value of the key. With LastRevision WrongLastRevision.
func (b *Bucket) Delete(key string, opts ...DeleteOpt) error {
	_, err := b.DeleteRevision(key, opts...)
	return err
}

// Purge ends the value of the key, and its earlier entries go. With LastRevision WrongLastRevision.
func (b *Bucket) Purge(key string, opts ...DeleteOpt) error {
	_, err := b.PurgeRevision(key, opts...)
	return err
}

// DeleteRevision is a Delete that tells the revision of the marker.
func (b *Bucket) DeleteRevision(key string, opts ...DeleteOpt) (revision uint64, err error) {
	return b.shared.delete(key, deleteOptsOf(opts))
}

// PurgeRevision is a Purge that tells the revision of the marker.
func (b *Bucket) PurgeRevision(key string, opts ...DeleteOpt) (revision uint64, err error) {
	return b.shared.purge(key, deleteOptsOf(opts))
}

// Seal ends the writes.
func (b *Bucket) Seal() error { return b.shared.seal() }

// Compact compacts to a floor: of the writes at or below it only the retained ones stay stored. ErrBadFloor, WatchBehind.
func (b *Bucket) Compact(floor uint64) error { return b.shared.compact(floor) }

// Reach is the highest floor to which a compaction is refused by no held watch and makes no other watch lag; 0 where there is none.
func (b *Bucket) Reach() (floor uint64, err error) { return b.shared.reach() }

// Keys are the keys that have a value, in the order of their last puts. Where there are none, that is no error.
func (b *Bucket) Keys(opts ...WatchOpt) ([]string, error) {
	if err := watchOptsOf(opts).ctx.Err(); err != nil {
		return nil, err
	}
	return b.KeysMatching(AllKeys)
}

// KeysMatching are those that a filter matches, or one of up to 16 filters with a comma between two: each once, in the same order.
// ErrBadFilter.
func (b *Bucket) KeysMatching(filters string) ([]string, error) {
	return b.keys(ofBucket, b.shared, filters)
}

// History are the retained entries of the key, oldest first. ErrBadKey, ErrKeyNotFound where there are none.
func (b *Bucket) History(key string, opts ...WatchOpt) ([]KeyValueEntry, error) {
	if err := watchOptsOf(opts).ctx.Err(); err != nil {
		return nil, err
	}
	moment, err := b.Snapshot()
	if err != nil {
		return nil, err
	}
	defer moment.Close()
	return moment.History(key)
}

// Status tells the numbers of the bucket.
func (b *Bucket) Status() (KeyValueStatus, error) {
	told, err := b.Numbers()
	if err != nil {
		return nil, err
	}
	return told, nil
}

// Numbers is a Status, with what nats.go has no name for.
func (b *Bucket) Numbers() (*Status, error) { return b.status(ofBucket, b.shared) }

// Finish tells watches that no write comes any more: each ends once all was handed out. It stops no writer.
func (b *Bucket) Finish() error { return b.shared.finish() }

// Close frees the bucket, and ends its watches, also where they had entries left. It waits for the calls that others are in. A
// snapshot can be read on.
func (b *Bucket) Close() {
	closeBucket(b.shared.at)
	runtime.KeepAlive(b.shared)
}
