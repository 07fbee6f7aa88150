package vilgoued

import (
	"fmt"
	"time"
)

// KeyValueOp is what a write did.
type KeyValueOp uint8

// What a write did.
const (
	KeyValuePut KeyValueOp = iota
	KeyValueDelete
	KeyValuePurge
)

func (op KeyValueOp) String() string {
	switch op {
	case KeyValuePut:
		return "KeyValuePutOp"
	case KeyValueDelete:
		return "KeyValueDeleteOp"
	case KeyValuePurge:
		return "KeyValuePurgeOp"
	}
	return "Unknown Operation"
}

// KeyValueEntry is an entry of a key.
type KeyValueEntry interface {
	// Bucket is the name of the bucket.
	Bucket() string
	// Key is the key.
	Key() string
	// Value is the value: nil where the write was a delete or a purge, or the watch shows no values. It belongs to the entry.
	Value() []byte
	// Revision is the number of the write, from 1.
	Revision() uint64
	// Created is always the zero time: this bucket keeps no times.
	Created() time.Time
	// Delta is always 0: this bucket does not count how far an entry is from the latest.
	Delta() uint64
	// Operation is what the write did.
	Operation() KeyValueOp
	// Size is how many bytes the value has, also where it is not shown.
	Size() uint64
}

// What takes up to so many bytes lies in the entry itself.
const within = 48

type entry struct {
	bucket         *string
	key            string
	value          []byte
	revision, size uint64
	op             KeyValueOp
	small          [within]byte
}

// An entry with a copy of the value.
func newEntry(b *Bucket, key string, value []byte) *entry {
	it := &entry{bucket: b.name, key: key, size: uint64(len(value))}
	it.value = it.room(len(value))
	copy(it.value, value)
	return it
}

// An entry with a copy of the key too.
func newItem(b *Bucket, key, value []byte) *entry {
	it := &entry{bucket: b.name, size: uint64(len(value))}
	all := it.room(len(value) + len(key))
	it.value = all[:copy(all, value):len(value)]
	it.key = text(all[len(value):])
	copy(all[len(value):], key)
	return it
}

// Memory for so many bytes, in the entry where they fit.
func (e *entry) room(size int) []byte {
	if size <= within {
		return e.small[:size:size]
	}
	return make([]byte, size)
}

func (e *entry) Bucket() string        { return *e.bucket }
func (e *entry) Key() string           { return e.key }
func (e *entry) Value() []byte         { return e.value }
func (e *entry) Revision() uint64      { return e.revision }
func (e *entry) Created() time.Time    { return time.Time{} }
func (e *entry) Delta() uint64         { return 0 }
func (e *entry) Operation() KeyValueOp { return e.op }
func (e *entry) Size() uint64          { return e.size }

func (e *entry) String() string {
	return fmt.Sprintf("%s %s at %d: %q", e.key, e.op, e.revision, e.value)
}

// KeyValueStatus tells the numbers of a bucket.
type KeyValueStatus interface {
	// Bucket is its name.
	Bucket() string
	// Values is how many entries are retained, markers included.
	Values() uint64
	// History is how many entries of each key are kept.
	History() int64
	// TTL is always 0: nothing ages.
	TTL() time.Duration
	// BackingStore is Memory.
	BackingStore() string
	// Bytes is always 0: this bucket does not count its bytes.
	Bytes() uint64
}

// Status is a KeyValueStatus, with what nats.go has no name for.
type Status struct {
	bucket  string
	history int64
	values  uint64
	// Last is the last revision, Stored how many writes are stored, and Watches how many held watches are open.
	Last, Stored, Watches uint64
	// IsSealed is whether writes have ended.
	IsSealed bool
}

// Bucket is its name.
func (s *Status) Bucket() string { return s.bucket }

// Values is how many entries are retained, markers included.
func (s *Status) Values() uint64 { return s.values }

// History is how many entries of each key are kept.
func (s *Status) History() int64 { return s.history }

// TTL is always 0: nothing ages.
func (s *Status) TTL() time.Duration { return 0 }

// BackingStore is Memory.
func (s *Status) BackingStore() string { return "Memory" }

// Bytes is always 0: this bucket does not count its bytes.
func (s *Status) Bytes() uint64 { return 0 }
