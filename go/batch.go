package vilgoued

import "fmt"

// Batch is writes that are gathered, to be made in one step by Bucket.Write. The zero Batch has none. Values are copied when they are
// gathered. One goroutine at a time uses a Batch.
type Batch struct {
	writes []batchedWrite
}

type batchedWrite struct {
	kind       int32
	key, value string
	hasLast    bool
	last       uint64
}

// Put gives the key the value.
func (b *Batch) Put(key string, value []byte) { b.PutString(key, string(value)) }

// PutString is a Put of a text.
func (b *Batch) PutString(key string, value string) {
	b.writes = append(b.writes, batchedWrite{kind: batchPut, key: key, value: value})
}

// Create is a Put where the key has no value.
func (b *Batch) Create(key string, value []byte) {
	b.writes = append(b.writes, batchedWrite{kind: batchCreate, key: key, value: string(value)})
}

// Update is a Put where last is the key's last revision, 0 where it was never written.
func (b *Batch) Update(key string, value []byte, last uint64) {
	b.writes = append(b.writes, batchedWrite{kind: batchUpdate, key: key, value: string(value), hasLast: true, last: last})
}

// Delete ends the value of the key.
func (b *Batch) Delete(key string, opts ...DeleteOpt) {
	given := deleteOptsOf(opts)
	b.writes = append(b.writes, batchedWrite{kind: batchDelete, key: key, hasLast: given.hasLast, last: given.last})
}

// Purge ends the value of the key, and its earlier entries go.
func (b *Batch) Purge(key string, opts ...DeleteOpt) {
	given := deleteOptsOf(opts)
	b.writes = append(b.writes, batchedWrite{kind: batchPurge, key: key, hasLast: given.hasLast, last: given.last})
}

// Len is how many writes are gathered.
func (b *Batch) Len() int { return len(b.writes) }

// Reset forgets them.
func (b *Batch) Reset() { b.writes = nil }

// Write makes all that is gathered in one step, or nothing of it, and tells the revision of the first write; the others have those from
// there on. Then the batch is empty. Each write is judged behind those before it, so an Update may name the revision of an earlier
// one. No read sees some of them without the others; a watch is handed them one by one. Of no writes nothing is made, and the last
// revision is told.
//
// A refusal is a BatchRefused, which has the index of the write that is refused; or ErrClosed. Then the bucket and the batch are as they
// were.
func (b *Bucket) Write(batch *Batch) (first uint64, err error) {
	first, err = b.shared.writeAll(batch.writes)
	if err == nil {
		batch.Reset()
	}
	return first, err
}

// BatchRefused is why a batch was refused: At is the index of the write that is refused, from 0, and Err what it is refused with behind
// those before it, which errors.Is and errors.As find.
type BatchRefused struct {
	At  int
	Err error
}

func (r BatchRefused) Error() string {
	return fmt.Sprintf("%v (write %d of a batch)", r.Err, r.At)
}

// Unwrap is Err.
func (r BatchRefused) Unwrap() error { return r.Err }
