package vilgoued

import "fmt"

// Refusal is why a call was refused, by the code of the rules. A refused call leaves the bucket as it was. Four refusals come with
// what they tell, as WrongLastRevision, WatchBehind, Lagged and FileDamaged; errors.Is finds the code of these too.
type Refusal uint64

// The refusals. The names of nats.go stand for the same ones.
const (
	ErrOutOfMemory       Refusal = 1
	ErrBadBucket         Refusal = 2
	ErrBadConfig         Refusal = 3
	ErrBadKey            Refusal = 4
	ErrBadFilter         Refusal = 5
	ErrOptionsClash      Refusal = 6
	ErrValueTooLarge     Refusal = 7
	ErrSealed            Refusal = 8
	ErrJournalFull       Refusal = 9
	ErrKeyExists         Refusal = 10
	ErrWrongLastRevision Refusal = 11
	ErrKeyNotFound       Refusal = 12
	ErrNoSuchWatch       Refusal = 13
	ErrTooManyWatches    Refusal = 14
	ErrBadFloor          Refusal = 19
	ErrWatchBehind       Refusal = 20
	ErrLagged            Refusal = 21
	ErrFileFault         Refusal = 22
	ErrFileDamaged       Refusal = 23
	ErrFileBusy          Refusal = 24
	ErrOtherBucket       Refusal = 25
	ErrClosed            Refusal = 32
	ErrNoDescriptor      Refusal = 64

	ErrInvalidBucketName = ErrBadBucket
	ErrInvalidKey        = ErrBadKey
	ErrHistoryToLarge    = ErrBadConfig
)

var told = map[Refusal][2]string{
	ErrOutOfMemory:       {"OutOfMemory", "a request for memory was refused"},
	ErrBadBucket:         {"BadBucket", "a bucket's name has 1 to 64 letters, digits, _ and -"},
	ErrBadConfig:         {"BadConfig", "a number is outside its limits"},
	ErrBadKey:            {"BadKey", "a key has 1 to 255 letters, digits and -/_= in tokens with a dot between two"},
	ErrBadFilter:         {"BadFilter", "a filter is a key, in which * may stand for a token and > at the end for the rest"},
	ErrOptionsClash:      {"OptionsClash", "two of history, updates and from a revision"},
	ErrValueTooLarge:     {"ValueTooLarge", "the value is longer than the bucket allows"},
	ErrSealed:            {"Sealed", "the bucket is sealed"},
	ErrJournalFull:       {"JournalFull", "the stored writes reach their limit, or the last revision its"},
	ErrKeyExists:         {"KeyExists", "the key has a value"},
	ErrWrongLastRevision: {"WrongLastRevision", "the key's last revision is another one"},
	ErrKeyNotFound:       {"KeyNotFound", "there is no such entry"},
	ErrNoSuchWatch:       {"NoSuchWatch", "the watch was stopped"},
	ErrTooManyWatches:    {"TooManyWatches", "64 held watches are open, or all numbers were given"},
	ErrBadFloor:          {"BadFloor", "the floor is 0, above the last revision, or below the last compaction's"},
	ErrWatchBehind:       {"WatchBehind", "a held watch is behind the floor"},
	ErrLagged:            {"Lagged", "what follows lags behind a compaction"},
	ErrFileFault:         {"FileFault", "the bucket's file has failed, and it takes no more writes"},
	ErrFileDamaged:       {"FileDamaged", "the file is damaged, or none of a bucket"},
	ErrFileBusy:          {"FileBusy", "another opening has the file"},
	ErrOtherBucket:       {"OtherBucket", "the file is of a bucket with another name or other limits"},
	ErrClosed:            {"Closed", "it is closed"},
	ErrNoDescriptor:      {"NoDescriptor", "the system gives no descriptor: too many files are open"},
}

// Name is its name in the rules, such as BadKey.
func (r Refusal) Name() string {
	if it, isThere := told[r]; isThere {
		return it[0]
	}
	return fmt.Sprintf("Refusal%d", uint64(r))
}

// Code is its number in the rules.
func (r Refusal) Code() uint64 { return uint64(r) }

func (r Refusal) Error() string {
	if it, isThere := told[r]; isThere {
		return "vilgoued: " + it[1]
	}
	return fmt.Sprintf("vilgoued: the library refused it by the code %d, which this package does not know", uint64(r))
}

// WrongLastRevision refuses a write that names another revision than the key's last one, which is Last: 0 where it was never written.
type WrongLastRevision struct{ Last uint64 }

func (r WrongLastRevision) Error() string {
	return fmt.Sprintf("vilgoued: the key's last revision is %d", r.Last)
}

// Unwrap is ErrWrongLastRevision.
func (r WrongLastRevision) Unwrap() error { return ErrWrongLastRevision }

// WatchBehind refuses a compaction that a held watch is behind: Watch is the least number of such a one.
type WatchBehind struct{ Watch uint64 }

func (r WatchBehind) Error() string {
	return fmt.Sprintf("vilgoued: the watch %d has still to be handed an entry at or below the floor", r.Watch)
}

// Unwrap is ErrWatchBehind.
func (r WatchBehind) Unwrap() error { return ErrWatchBehind }

// Lagged ends a watch: the bucket was compacted, to Floor, before the watch had gone on as far, so it would leave out entries.
type Lagged struct{ Floor uint64 }

func (r Lagged) Error() string {
	return fmt.Sprintf("vilgoued: what follows lags behind a compaction, whose floor is %d", r.Floor)
}

// Unwrap is ErrLagged.
func (r Lagged) Unwrap() error { return ErrLagged }

// FileDamaged refuses a file that has other bytes than were written, or is none of a bucket: they are good up to the offset At.
type FileDamaged struct{ At uint64 }

func (r FileDamaged) Error() string {
	return fmt.Sprintf("vilgoued: the file is damaged, or none of a bucket: its bytes are good up to offset %d", r.At)
}

// Unwrap is ErrFileDamaged.
func (r FileDamaged) Unwrap() error { return ErrFileDamaged }

// The refusal of a code of the library; four tell a number.
func refusal[Number ~uint64](code, number Number) error {
	switch Refusal(code) {
	case 0:
		return nil
	case ErrWrongLastRevision:
		return WrongLastRevision{uint64(number)}
	case ErrWatchBehind:
		return WatchBehind{uint64(number)}
	case ErrLagged:
		return Lagged{uint64(number)}
	case ErrFileDamaged:
		return FileDamaged{uint64(number)}
	}
	return Refusal(code)
}
