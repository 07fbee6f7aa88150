package vilgoued

import "context"

// KeyValueConfig is what a bucket is opened with. Where a number is 0, it is what stands behind it here.
type KeyValueConfig struct {
	// Bucket is its name: 1 to 64 letters, digits, _ and -.
	Bucket string
	// History is how many entries of each key are kept: 1 to 64; 1.
	History uint8
	// MaxValueSize is how many bytes a value may have; 1,048,576, which is the most. With a negative number a value has none.
	MaxValueSize int32
	// WriteLimit is how many writes may be stored; 1,000,000, which is the most.
	WriteLimit uint64
	// RevisionLimit is the last revision; 4,294,967,295, which is the most.
	RevisionLimit uint64
	// Path is a file, by which the bucket outlives the process: what it had accepted is there again, but its watches. None; then it is
	// in memory alone.
	Path string
	// SyncEvery is how many writes there are from one sync of the file to the next; 1, so each write is on the disk when it returns.
	// With a negative number only Sync and Close sync.
	SyncEvery int
}

// AllKeys is the filter that matches each key.
const AllKeys = ">"

// KeyValueMaxHistory is how many entries of a key can be kept.
const KeyValueMaxHistory = 64

// WatchOpt is how a watch is opened.
type WatchOpt interface {
	configureWatcher(opts *watchOpts)
}

type watchOpts struct {
	ctx                            context.Context
	history, updates, fromRevision bool
	from                           uint64
	ignoreDeletes, metaOnly        bool
}

type watchOptFn func(opts *watchOpts)

func (opt watchOptFn) configureWatcher(opts *watchOpts) { opt(opts) }

// IncludeHistory begins a watch with all retained entries.
func IncludeHistory() WatchOpt {
	return watchOptFn(func(opts *watchOpts) { opts.history = true })
}

// UpdatesOnly begins a watch with nothing, and with no end marker.
func UpdatesOnly() WatchOpt {
	return watchOptFn(func(opts *watchOpts) { opts.updates = true })
}

// FromRevision begins a watch with the retained entries from a revision on.
func FromRevision(revision uint64) WatchOpt {
	return watchOptFn(func(opts *watchOpts) { opts.fromRevision, opts.from = true, revision })
}

// IgnoreDeletes leaves out the markers of deletes and purges.
func IgnoreDeletes() WatchOpt {
	return watchOptFn(func(opts *watchOpts) { opts.ignoreDeletes = true })
}

// MetaOnly shows no values.
func MetaOnly() WatchOpt {
	return watchOptFn(func(opts *watchOpts) { opts.metaOnly = true })
}

// ContextOpt is a context, as an option.
type ContextOpt struct{ context.Context }

func (ctx ContextOpt) configureWatcher(opts *watchOpts) { opts.ctx = ctx.Context }

// Context ends a watch with a context.
func Context(ctx context.Context) ContextOpt { return ContextOpt{ctx} }

func watchOptsOf(given []WatchOpt) *watchOpts {
	opts := &watchOpts{ctx: context.Background()}
	for _, opt := range given {
		if opt != nil {
			opt.configureWatcher(opts)
		}
	}
	return opts
}

// What a watch begins with, as the library numbers it.
func (opts *watchOpts) start() (uint32, error) {
	asked := 0
	number := uint32(0)
	for at, isAsked := range []bool{opts.history, opts.updates, opts.fromRevision} {
		if isAsked {
			asked++
			number = uint32(at + 1)
		}
	}
	if asked > 1 {
		return 0, ErrOptionsClash
	}
	return number, nil
}

// DeleteOpt is how a key is deleted or purged.
type DeleteOpt interface {
	configureDelete(opts *deleteOpts)
}

type deleteOpts struct {
	hasLast bool
	last    uint64
}

type deleteOptFn func(opts *deleteOpts)

func (opt deleteOptFn) configureDelete(opts *deleteOpts) { opt(opts) }

// LastRevision deletes only where that is the key's last revision; with 0, where it was never written.
func LastRevision(revision uint64) DeleteOpt {
	return deleteOptFn(func(opts *deleteOpts) { opts.hasLast, opts.last = true, revision })
}

func deleteOptsOf(given []DeleteOpt) deleteOpts {
	var opts deleteOpts
	for _, opt := range given {
		if opt != nil {
			opt.configureDelete(&opts)
		}
	}
	return opts
}
