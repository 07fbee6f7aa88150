package vilgoued

/*
#cgo CFLAGS: -std=gnu11 -I${SRCDIR}/../include
#cgo LDFLAGS: -L${SRCDIR}/../lib -l:libvilgoued.a -lpthread

// The library lies in lib/ beside include/, in a checkout as under the prefix of an installed release, or beside its header.
#if !__has_include(<../lib/libvilgoued.a>) && !__has_include(<libvilgoued.a>)
#error "there is no lib/libvilgoued.a in the checkout: run ./library there, or name an installed release as docs/go.md says"
#endif

#include <stdlib.h>
#include "vilgoued_shared.h"

// Handles are numbers here: they are the library's own memory, in which nothing of Go lies. What is told comes back as a value, so
// that no memory of Go is given for it, but for items. Texts, rooms and items are memory of Go that has no pointers in it, and used
// during the call alone.
typedef struct { uint64_t code, number; size_t size, count; } vg_told;
typedef struct { kv_item item; uint64_t number; } vg_taken;

#define BYTES(s) (_GoStringLen(s) ? (const uint8_t *)_GoStringPtr(s) : (const uint8_t *)""), _GoStringLen(s)
#define SHARED ((kv_shared *)at)
#define TOLD(call) vg_told told = {0}; told.code = call; return told

static uintptr_t vg_handle(void) { return (uintptr_t)calloc(1, sizeof(kv_shared)); }
static void vg_free(uintptr_t at) { free((void *)at); }

static vg_told vg_open(uintptr_t at, _GoString_ name, uint64_t history, uint64_t values, uint64_t writes, uint64_t revisions) {
    kv_limits limits = {history, values, writes, revisions};
    TOLD(kv_shared_open(SHARED, BYTES(name), &limits));
}
static vg_told vg_open_file(uintptr_t at, _GoString_ path, _GoString_ name, uint64_t history, uint64_t values, uint64_t writes,
                            uint64_t revisions, uint64_t sync) {
    kv_limits limits = {history, values, writes, revisions};
    uint64_t dropped = 0, offset = 0;
    vg_told told = {0};
    told.code = kv_shared_open_file(SHARED, BYTES(path), BYTES(name), &limits, sync, &dropped, &offset);
    told.number = told.code == KV_OK ? dropped : offset;
    return told;
}
static vg_told vg_sync(uintptr_t at) { TOLD(kv_shared_sync(SHARED)); }
static vg_told vg_checkpoint(uintptr_t at) { TOLD(kv_shared_checkpoint(SHARED)); }
static void vg_close(uintptr_t at) { kv_shared_close(SHARED); }
static vg_told vg_finish(uintptr_t at) { TOLD(kv_shared_finish(SHARED)); }
static vg_told vg_put(uintptr_t at, _GoString_ key, _GoString_ value) {
    TOLD(kv_shared_put(SHARED, BYTES(key), BYTES(value), &told.number));
}
static vg_told vg_create(uintptr_t at, _GoString_ key, _GoString_ value) {
    TOLD(kv_shared_create(SHARED, BYTES(key), BYTES(value), &told.number));
}
static vg_told vg_update(uintptr_t at, _GoString_ key, _GoString_ value, uint64_t last) {
    TOLD(kv_shared_update(SHARED, BYTES(key), BYTES(value), last, &told.number));
}
static vg_told vg_delete(uintptr_t at, _GoString_ key, _Bool has_last, uint64_t last) {
    TOLD(kv_shared_delete(SHARED, BYTES(key), has_last, last, &told.number));
}
static vg_told vg_purge(uintptr_t at, _GoString_ key, _Bool has_last, uint64_t last) {
    TOLD(kv_shared_purge(SHARED, BYTES(key), has_last, last, &told.number));
}

// Writes that are gathered.
enum { PUTS, CREATES, UPDATES, DELETES, PURGES };
static void vg_batch_close(uintptr_t at) { kv_batch_close((kv_batch *)at); }
static uint64_t vg_gather(uintptr_t batch, int kind, _GoString_ key, _GoString_ value, _Bool has_last, uint64_t last) {
    kv_batch *to = (kv_batch *)batch;
    switch (kind) {
    case PUTS:
        return kv_batch_put(to, BYTES(key), BYTES(value));
    case CREATES:
        return kv_batch_create(to, BYTES(key), BYTES(value));
    case UPDATES:
        return kv_batch_update(to, BYTES(key), BYTES(value), last);
    case DELETES:
        return kv_batch_delete(to, BYTES(key), has_last, last);
    default:
        return kv_batch_purge(to, BYTES(key), has_last, last);
    }
}
static vg_told vg_write_all(uintptr_t at, uintptr_t batch) {
    TOLD(kv_shared_write_all(SHARED, (kv_batch *)batch, &told.number, &told.size));
}

static vg_told vg_seal(uintptr_t at) { TOLD(kv_shared_seal(SHARED)); }
static vg_told vg_compact(uintptr_t at, uint64_t floor) { TOLD(kv_shared_compact(SHARED, floor, &told.number)); }
static vg_told vg_reach(uintptr_t at) { TOLD(kv_shared_reach(SHARED, &told.number)); }

// What is read: a bucket, a reader or a snapshot.
enum { OF_BUCKET, OF_READER, OF_VIEW };

static vg_told vg_get(int of, uintptr_t at, _GoString_ key, uint8_t *room, size_t room_size) {
    vg_told told = {0};
    told.code = of == OF_BUCKET   ? kv_shared_get(SHARED, BYTES(key), room, room_size, &told.size, &told.number)
                : of == OF_READER ? kv_reader_get((kv_reader *)at, BYTES(key), room, room_size, &told.size, &told.number)
                                  : kv_view_get((kv_view *)at, BYTES(key), room, room_size, &told.size, &told.number);
    return told;
}
static vg_told vg_get_at(int of, uintptr_t at, _GoString_ key, uint64_t asked, uint8_t *room, size_t room_size) {
    vg_told told = {0};
    told.code =
        of == OF_BUCKET   ? kv_shared_get_at(SHARED, BYTES(key), asked, room, room_size, &told.size, &told.number)
        : of == OF_READER ? kv_reader_get_at((kv_reader *)at, BYTES(key), asked, room, room_size, &told.size, &told.number)
                          : kv_view_get_at((kv_view *)at, BYTES(key), asked, room, room_size, &told.size, &told.number);
    return told;
}
static vg_told vg_keys(int of, uintptr_t at, _GoString_ filters, uint8_t *room, size_t room_size) {
    vg_told told = {0};
    told.code = of == OF_BUCKET   ? kv_shared_keys(SHARED, BYTES(filters), room, room_size, &told.size, &told.count)
                : of == OF_READER ? kv_reader_keys((kv_reader *)at, BYTES(filters), room, room_size, &told.size, &told.count)
                                  : kv_view_keys((kv_view *)at, BYTES(filters), room, room_size, &told.size, &told.count);
    return told;
}
typedef struct { uint64_t code; kv_status status; } vg_status;
static vg_status vg_get_status(int of, uintptr_t at) {
    vg_status told = {0};
    told.code = of == OF_BUCKET   ? kv_shared_get_status(SHARED, &told.status)
                : of == OF_READER ? kv_reader_get_status((kv_reader *)at, &told.status)
                                  : kv_view_get_status((kv_view *)at, &told.status);
    return told;
}
static uint64_t vg_history(uintptr_t at, _GoString_ key, size_t index, uint8_t *room, size_t room_size, vg_taken *told) {
    size_t count;
    return kv_view_history((kv_view *)at, BYTES(key), index, room, room_size, &told->item, &count);
}

static vg_told vg_snapshot(uintptr_t at, uintptr_t view) { TOLD(kv_shared_snapshot(SHARED, (kv_view *)view)); }
static void vg_view_close(uintptr_t at) { kv_view_close((kv_view *)at); }
static vg_told vg_reader_open(uintptr_t at, uintptr_t reader) { TOLD(kv_reader_open(SHARED, (kv_reader *)reader)); }
static void vg_reader_close(uintptr_t at) { kv_reader_close((kv_reader *)at); }

static vg_told vg_watch(uintptr_t at, _GoString_ filters, uint32_t start, uint64_t from, _Bool no_deletes, _Bool meta) {
    kv_options options = {start, from, no_deletes, meta};
    TOLD(kv_shared_watch(SHARED, BYTES(filters), &options, &told.number));
}
static uint64_t vg_take(uintptr_t at, uint64_t number, uint8_t *keys, uint8_t *values, size_t values_size, vg_taken *told) {
    return kv_shared_take(SHARED, number, keys, 255, values, values_size, &told->item);
}
static vg_told vg_stop(uintptr_t at, uint64_t number) { TOLD(kv_shared_stop(SHARED, number, &told.number)); }

static vg_told vg_follow(uintptr_t at, _GoString_ filters, uint32_t start, uint64_t from, _Bool no_deletes, _Bool meta,
                         uintptr_t follower) {
    kv_options options = {start, from, no_deletes, meta};
    int fd = -1;
    vg_told told = {0};
    told.code = kv_follower_open(SHARED, BYTES(filters), &options, (kv_follower *)follower);
    if (told.code == KV_OK && (told.code = kv_follower_fd((kv_follower *)follower, &fd)) != KV_OK)
        kv_follower_close((kv_follower *)follower);
    told.number = (uint64_t)fd;
    return told;
}
static uint64_t vg_next(uintptr_t at, uint8_t *keys, uint8_t *values, size_t values_size, vg_taken *told) {
    return kv_follower_next((kv_follower *)at, 0, keys, 255, values, values_size, &told->item, &told->number);
}
static void vg_follower_stop(uintptr_t at) { kv_follower_stop((kv_follower *)at); }
static void vg_follower_close(uintptr_t at) { kv_follower_close((kv_follower *)at); }
*/
import "C"

import (
	"bytes"
	"runtime"
	"sync"
	"unsafe"
)

// What is read, as the calls above have it.
const (
	ofBucket = C.OF_BUCKET
	ofReader = C.OF_READER
	ofView   = C.OF_VIEW
)

// The kinds of writes in a batch, in the same way.
const (
	batchPut    = C.PUTS
	batchCreate = C.CREATES
	batchUpdate = C.UPDATES
	batchDelete = C.DELETES
	batchPurge  = C.PURGES
)

// What is read, by its number.
func ofHandle(of int32) C.int { return C.int(of) }

const (
	tooLittleRoom = C.KV_TOO_LITTLE_ROOM
	longestKey    = 255
	smallRoom     = 1024
)

// The memory of a handle, which is the library's and not Go's. It is freed when nothing of Go has it any more, so that a call behind a
// close finds it closed.
type handle struct {
	at    C.uintptr_t
	close func(C.uintptr_t)
}

func newHandle(close func(C.uintptr_t)) (*handle, error) {
	it := &handle{at: C.vg_handle(), close: close}
	if it.at == 0 {
		return nil, ErrOutOfMemory
	}
	runtime.SetFinalizer(it, func(it *handle) {
		it.close(it.at)
		C.vg_free(it.at)
	})
	return it, nil
}

func closeBucket(at C.uintptr_t)   { C.vg_close(at) }
func closeView(at C.uintptr_t)     { C.vg_view_close(at) }
func closeReader(at C.uintptr_t)   { C.vg_reader_close(at) }
func closeFollower(at C.uintptr_t) { C.vg_follower_close(at) }
func closeBatch(at C.uintptr_t)    { C.vg_batch_close(at) }

// The bytes as a text that is used during one call, while they stay.
func text(value []byte) string {
	return *(*string)(unsafe.Pointer(&value))
}

func start(room []byte) *C.uint8_t {
	return (*C.uint8_t)(unsafe.Pointer(&room[0]))
}

type small struct {
	bytes [smallRoom]byte
}

// Rooms for calls that any number of goroutines make at once.
var spare = sync.Pool{New: func() any { return new(small) }}

// Reads a value, by a call that is told a room, and that is made again with a larger one where that is too small.
func (b *Bucket) value(key string, room []byte, call func(room []byte) C.vg_told) (KeyValueEntry, error) {
	for {
		told := call(room)
		if told.code == 0 {
			value := append([]byte{}, room[:told.size]...)
			return &entry{bucket: b.name, key: key, value: value, size: uint64(told.size), revision: uint64(told.number)}, nil
		}
		if told.code != tooLittleRoom {
			return nil, refusal(told.code, 0)
		}
		room = make([]byte, told.size)
	}
}

func (b *Bucket) get(of C.int, it *handle, key string, room []byte) (KeyValueEntry, error) {
	told := C.vg_get(of, it.at, key, start(room), C.size_t(len(room)))
	runtime.KeepAlive(it)
	if told.code == 0 {
		found := newEntry(b, key, room[:told.size])
		found.revision = uint64(told.number)
		return found, nil
	}
	if told.code != tooLittleRoom {
		return nil, refusal(told.code, 0)
	}
	return b.value(key, make([]byte, told.size), func(room []byte) C.vg_told {
		defer runtime.KeepAlive(it)
		return C.vg_get(of, it.at, key, start(room), C.size_t(len(room)))
	})
}

func (b *Bucket) getAt(of C.int, it *handle, key string, revision uint64) (KeyValueEntry, error) {
	defer runtime.KeepAlive(it)
	return b.value(key, make([]byte, smallRoom), func(room []byte) C.vg_told {
		return C.vg_get_at(of, it.at, key, C.uint64_t(revision), start(room), C.size_t(len(room)))
	})
}

func (b *Bucket) keys(of C.int, it *handle, filters string) ([]string, error) {
	defer runtime.KeepAlive(it)
	room := make([]byte, smallRoom)
	for {
		told := C.vg_keys(of, it.at, filters, start(room), C.size_t(len(room)))
		if told.code == 0 {
			keys := make([]string, 0, told.count)
			for _, key := range bytes.SplitN(room[:told.size], []byte{0}, int(told.count)+1)[:told.count] {
				keys = append(keys, string(key))
			}
			return keys, nil
		}
		if told.code != tooLittleRoom {
			return nil, refusal(told.code, 0)
		}
		room = make([]byte, told.size)
	}
}

func (b *Bucket) status(of C.int, it *handle) (*Status, error) {
	defer runtime.KeepAlive(it)
	told := C.vg_get_status(of, it.at)
	if told.code != 0 {
		return nil, refusal(told.code, 0)
	}
	return &Status{
		bucket: *b.name, history: int64(told.status.history), values: uint64(told.status.values),
		Last: uint64(told.status.last), Stored: uint64(told.status.stored), Watches: uint64(told.status.watches),
		IsSealed: bool(told.status.sealed),
	}, nil
}

// Room for an item's key and value.
type room struct {
	told  C.vg_taken
	key   [longestKey]byte
	value []byte
}

func newRoom() *room {
	return &room{value: make([]byte, smallRoom)}
}

// What a take told; a nil entry that is there is the end marker. Where the room was too small there is a larger one, and the take is to
// be made again.
func (b *Bucket) taken(room *room, code C.uint64_t) (found *entry, isThere, isAgain bool, err error) {
	item := &room.told.item
	switch {
	case code == tooLittleRoom:
		room.value = make([]byte, item.value_size)
		return nil, false, true, nil
	case code != 0:
		return nil, false, false, refusal(code, room.told.number)
	case item.kind == C.KV_EMPTY:
		return nil, false, false, nil
	case item.kind == C.KV_MARKER:
		return nil, true, false, nil
	}
	return b.shown(room.key[:item.key_size], room.value, item), true, false, nil
}

func (b *Bucket) shown(key, value []byte, item *C.kv_item) *entry {
	it := newItem(b, key, value[:item.value_size])
	it.op, it.revision, it.size = KeyValueOp(item.op), uint64(item.revision), uint64(item.size)
	if !bool(item.has_value) {
		it.value = nil
	}
	return it
}

func (b *Bucket) history(view *handle, key string) ([]KeyValueEntry, error) {
	defer runtime.KeepAlive(view)
	var found []KeyValueEntry
	room := make([]byte, smallRoom)
	told := new(C.vg_taken)
	for {
		code := C.vg_history(view.at, key, C.size_t(len(found)), start(room), C.size_t(len(room)), told)
		switch {
		case code == tooLittleRoom:
			room = make([]byte, told.item.value_size)
		case code != 0:
			return nil, refusal(code, 0)
		case told.item.kind == C.KV_EMPTY:
			if len(found) == 0 {
				return nil, ErrKeyNotFound
			}
			return found, nil
		default:
			found = append(found, b.shown([]byte(key), room, &told.item))
		}
	}
}

// What a write tells.
func written(it *handle, told C.vg_told) (uint64, error) {
	runtime.KeepAlive(it)
	if told.code != 0 {
		return 0, refusal(told.code, told.number)
	}
	return uint64(told.number), nil
}

func (h *handle) open(limits *KeyValueConfig) error {
	_, err := written(h, C.vg_open(h.at, limits.Bucket, C.uint64_t(limits.History), C.uint64_t(limits.MaxValueSize),
		C.uint64_t(limits.WriteLimit), C.uint64_t(limits.RevisionLimit)))
	return err
}

// How many bytes of a torn end were dropped.
func (h *handle) openFile(limits *KeyValueConfig) (uint64, error) {
	sync := uint64(1)
	switch {
	case limits.SyncEvery > 0:
		sync = uint64(limits.SyncEvery)
	case limits.SyncEvery < 0:
		sync = 0
	}
	return written(h, C.vg_open_file(h.at, limits.Path, limits.Bucket, C.uint64_t(limits.History), C.uint64_t(limits.MaxValueSize),
		C.uint64_t(limits.WriteLimit), C.uint64_t(limits.RevisionLimit), C.uint64_t(sync)))
}

func (h *handle) sync() error {
	_, err := written(h, C.vg_sync(h.at))
	return err
}

func (h *handle) checkpoint() error {
	_, err := written(h, C.vg_checkpoint(h.at))
	return err
}

func (h *handle) put(key, value string) (uint64, error) {
	return written(h, C.vg_put(h.at, key, value))
}

func (h *handle) create(key, value string) (uint64, error) {
	return written(h, C.vg_create(h.at, key, value))
}

func (h *handle) update(key, value string, last uint64) (uint64, error) {
	return written(h, C.vg_update(h.at, key, value, C.uint64_t(last)))
}

func (h *handle) delete(key string, opts deleteOpts) (uint64, error) {
	return written(h, C.vg_delete(h.at, key, C.bool(opts.hasLast), C.uint64_t(opts.last)))
}

func (h *handle) purge(key string, opts deleteOpts) (uint64, error) {
	return written(h, C.vg_purge(h.at, key, C.bool(opts.hasLast), C.uint64_t(opts.last)))
}

// Gathers all these writes, and makes them in one step.
func (h *handle) writeAll(writes []batchedWrite) (uint64, error) {
	batch, err := newHandle(closeBatch)
	if err != nil {
		return 0, err
	}
	defer runtime.KeepAlive(h)
	defer closeBatch(batch.at)
	for at, it := range writes {
		code := C.vg_gather(batch.at, C.int(it.kind), it.key, it.value, C.bool(it.hasLast), C.uint64_t(it.last))
		if code != 0 {
			return 0, h.refusedAt(at, refusal(code, 0))
		}
	}
	told := C.vg_write_all(h.at, batch.at)
	runtime.KeepAlive(batch)
	if told.code != 0 {
		return 0, h.refusedAt(int(told.size), refusal(told.code, told.number))
	}
	return uint64(told.number), nil
}

// The refusal of a write of a batch. That the bucket is closed comes before every other one.
func (h *handle) refusedAt(at int, err error) error {
	if C.vg_get_status(ofBucket, h.at).code != 0 {
		return ErrClosed
	}
	return BatchRefused{At: at, Err: err}
}

func (h *handle) seal() error {
	_, err := written(h, C.vg_seal(h.at))
	return err
}

func (h *handle) compact(floor uint64) error {
	_, err := written(h, C.vg_compact(h.at, C.uint64_t(floor)))
	return err
}

func (h *handle) reach() (uint64, error) {
	return written(h, C.vg_reach(h.at))
}

func (h *handle) finish() error {
	_, err := written(h, C.vg_finish(h.at))
	return err
}

func (h *handle) snapshot(view *handle) error {
	_, err := written(h, C.vg_snapshot(h.at, view.at))
	return err
}

func (h *handle) reader(reader *handle) error {
	_, err := written(h, C.vg_reader_open(h.at, reader.at))
	return err
}

func (h *handle) watch(filters string, start uint32, opts *watchOpts) (uint64, error) {
	return written(h, C.vg_watch(h.at, filters, C.uint32_t(start), C.uint64_t(opts.from), C.bool(opts.ignoreDeletes),
		C.bool(opts.metaOnly)))
}

func (h *handle) stop(number uint64) (uint64, error) {
	return written(h, C.vg_stop(h.at, C.uint64_t(number)))
}

// Opens a follower, and tells its descriptor.
func (h *handle) follow(filters string, start uint32, opts *watchOpts, follower *handle) (uintptr, error) {
	fd, err := written(h, C.vg_follow(h.at, filters, C.uint32_t(start), C.uint64_t(opts.from), C.bool(opts.ignoreDeletes),
		C.bool(opts.metaOnly), follower.at))
	return uintptr(fd), err
}

// Takes from a held watch.
func (b *Bucket) takenHeld(number uint64, room *room) (found *entry, isThere bool, err error) {
	for isAgain := true; isAgain; {
		code := C.vg_take(b.shared.at, C.uint64_t(number), start(room.key[:]), start(room.value), C.size_t(len(room.value)), &room.told)
		found, isThere, isAgain, err = b.taken(room, code)
	}
	runtime.KeepAlive(b.shared)
	return found, isThere, err
}

// Takes what a follower has now.
func (b *Bucket) takenNow(follower *handle, room *room) (found *entry, isThere bool, err error) {
	for isAgain := true; isAgain; {
		code := C.vg_next(follower.at, start(room.key[:]), start(room.value), C.size_t(len(room.value)), &room.told)
		found, isThere, isAgain, err = b.taken(room, code)
	}
	runtime.KeepAlive(follower)
	return found, isThere, err
}

// Ends a follower that is open, and wakes who waits for it.
func (h *handle) stopFollower() {
	C.vg_follower_stop(h.at)
	runtime.KeepAlive(h)
}
