package vilgoued

import (
	"runtime"
	"sync"
)

// Reader reads a bucket beside its lock, which it takes only where something new was published. Each call reads each write that had
// returned when it began. It takes one call at a time, so a goroutine that reads often has its own. Behind its Close it is ErrClosed.
type Reader struct{ moment }

// Snapshot is what a bucket had accepted by a moment. It stays as it is, also behind the bucket's Close, until its own.
type Snapshot struct{ moment }

// One of the two. Calls take turns.
type moment struct {
	bucket *Bucket
	of     int32
	lock   sync.Mutex
	at     *handle
	room   *small
}

// Reader opens a reader.
func (b *Bucket) Reader() (*Reader, error) {
	at, err := newHandle(closeReader)
	if err == nil {
		err = b.shared.reader(at)
	}
	if err != nil {
		return nil, err
	}
	return &Reader{moment{bucket: b, of: ofReader, at: at, room: new(small)}}, nil
}

// Snapshot is what the bucket has accepted by now.
func (b *Bucket) Snapshot() (*Snapshot, error) {
	at, err := newHandle(closeView)
	if err == nil {
		err = b.shared.snapshot(at)
	}
	if err != nil {
		return nil, err
	}
	return &Snapshot{moment{bucket: b, of: ofView, at: at, room: new(small)}}, nil
}

// Get is the latest entry of the key, where that is a put. ErrBadKey, ErrKeyNotFound.
func (m *moment) Get(key string) (KeyValueEntry, error) {
	m.lock.Lock()
	defer m.lock.Unlock()
	return m.bucket.get(ofHandle(m.of), m.at, key, m.room.bytes[:])
}

// GetRevision is the retained put of the key that has this revision. ErrBadKey, ErrKeyNotFound.
func (m *moment) GetRevision(key string, revision uint64) (KeyValueEntry, error) {
	m.lock.Lock()
	defer m.lock.Unlock()
	return m.bucket.getAt(ofHandle(m.of), m.at, key, revision)
}

// KeysMatching are the keys that a filter matches, or one of up to 16 filters with a comma between two, and that have a value: each
// once, in the order of their last puts. ErrBadFilter.
func (m *moment) KeysMatching(filters string) ([]string, error) {
	m.lock.Lock()
	defer m.lock.Unlock()
	return m.bucket.keys(ofHandle(m.of), m.at, filters)
}

// Numbers tells the numbers of the bucket; of held watches it tells none.
func (m *moment) Numbers() (*Status, error) {
	m.lock.Lock()
	defer m.lock.Unlock()
	return m.bucket.status(ofHandle(m.of), m.at)
}

// Close frees it.
func (m *moment) Close() {
	m.lock.Lock()
	defer m.lock.Unlock()
	m.at.close(m.at.at)
	runtime.KeepAlive(m.at)
}

// History are the retained entries of the key, oldest first. ErrBadKey, ErrKeyNotFound where there are none.
func (s *Snapshot) History(key string) ([]KeyValueEntry, error) {
	s.lock.Lock()
	defer s.lock.Unlock()
	return s.bucket.history(s.at, key)
}
