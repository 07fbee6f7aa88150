// Package both runs one function over a bucket of NATS and over one of this repository.
package both

import (
	"context"
	"errors"
	"fmt"
	"os"
	"strings"
	"testing"
	"time"

	"github.com/nats-io/nats.go"
	"vilgoued"
)

// What the two have of an entry, of a watcher and of a bucket. Each package has its own types of options, which the function below
// is given.
type entry interface {
	Bucket() string
	Key() string
	Value() []byte
	Revision() uint64
	Created() time.Time
	Delta() uint64
}

type watcher[Entry entry] interface {
	Context() context.Context
	Updates() <-chan Entry
	Stop() error
}

type status interface {
	Bucket() string
	Values() uint64
	History() int64
	TTL() time.Duration
	BackingStore() string
	Bytes() uint64
}

type keyValue[Entry entry, Watcher watcher[Entry], Status status, WatchOpt, DeleteOpt any] interface {
	Get(key string) (Entry, error)
	GetRevision(key string, revision uint64) (Entry, error)
	Put(key string, value []byte) (uint64, error)
	PutString(key string, value string) (uint64, error)
	Create(key string, value []byte) (uint64, error)
	Update(key string, value []byte, last uint64) (uint64, error)
	Delete(key string, opts ...DeleteOpt) error
	Purge(key string, opts ...DeleteOpt) error
	Watch(keys string, opts ...WatchOpt) (Watcher, error)
	WatchAll(opts ...WatchOpt) (Watcher, error)
	Keys(opts ...WatchOpt) ([]string, error)
	History(key string, opts ...WatchOpt) ([]Entry, error)
	Bucket() string
	Status() (Status, error)
}

// What refuses calls in a package. Of another last revision nats.go has no name: there it is the error of ErrKeyExists.
type refusals struct {
	keyExists, keyNotFound, invalidKey, wrongLast error
}

// The name of what refused a call.
func (r refusals) name(err error) string {
	switch {
	case err == nil:
		return "none"
	case errors.Is(err, r.keyExists):
		return "ErrKeyExists"
	case errors.Is(err, r.keyNotFound):
		return "ErrKeyNotFound"
	case errors.Is(err, r.invalidKey):
		return "ErrInvalidKey"
	}
	return "another"
}

// A service that keeps its settings in a bucket: what it sees, line by line.
func use[E entry, W watcher[E], S status, WO, DO any](b keyValue[E, W, S, WO, DO], named refusals, ignoreDeletes WO, lastRevision func(uint64) DO) []string {
	var seen []string
	say := func(what string, told any, err error) {
		seen = append(seen, fmt.Sprintf("%s: %v, refused: %s", what, told, named.name(err)))
	}
	sayOfRevision := func(what string, err error) {
		seen = append(seen, fmt.Sprintf("%s: another last revision %v", what, errors.Is(err, named.wrongLast)))
	}
	put := func(key, value string) {
		revision, err := b.PutString(key, value)
		say("put "+key, revision, err)
	}
	put("app.port", "80")
	revision, err := b.Create("app.host", []byte("localhost"))
	say("create", revision, err)
	_, err = b.Create("app.host", []byte("other"))
	say("create what is there", 0, err)
	revision, err = b.Update("app.port", []byte("8080"), 1)
	say("update", revision, err)
	_, err = b.Update("app.port", []byte("9090"), 1)
	sayOfRevision("update at another revision", err)

	all, err := b.Watch("app.*")
	say("watch", 0, err)
	kept, err := b.WatchAll(ignoreDeletes)
	say("watch all", 0, err)
	for _, it := range []W{all, kept} {
		for isInitial := true; isInitial; {
			next := receive(it.Updates())
			isInitial = next != ""
			seen = append(seen, "initial: "+next)
		}
	}
	say("delete", 0, b.Delete("app.host"))
	sayOfRevision("delete at another revision", b.Delete("app.port", lastRevision(1)))
	revision, err = b.Put("db.port", []byte{})
	say("put nothing", revision, err)
	// It is read before the purge: behind that NATS would send it no more.
	seen = append(seen, "kept: "+receive(kept.Updates()))
	say("purge", 0, b.Purge("db.port"))
	put("app.port", "81")
	seen = append(seen, "kept: "+receive(kept.Updates()))
	for range [2]int{} {
		seen = append(seen, "all: "+receive(all.Updates()))
	}
	say("stop", 0, all.Stop())
	say("stop", 0, kept.Stop())

	found, err := b.Get("app.port")
	say("get", shown[E](found), err)
	_, err = b.Get("app.host")
	say("get what was deleted", 0, err)
	_, err = b.Get("none")
	say("get what never was", 0, err)
	_, err = b.Get("a b")
	say("get by no key", 0, err)
	found, err = b.GetRevision("app.port", 3)
	say("get at a revision", shown[E](found), err)
	history, err := b.History("app.host")
	say("history", len(history), err)
	for _, it := range history {
		seen = append(seen, "history: "+shown[E](it))
	}
	keys, err := b.Keys()
	say("keys", keys, err)
	told, err := b.Status()
	say("status", []any{told.Bucket() == b.Bucket(), told.History(), told.TTL()}, err)
	return seen
}

func shown[E entry](it E) string {
	if any(it) == nil {
		return ""
	}
	return fmt.Sprintf("%s at %d: %q", it.Key(), it.Revision(), it.Value())
}

func receive[E entry](updates <-chan E) string {
	select {
	case it := <-updates:
		return shown(it)
	case <-time.After(10 * time.Second):
		return "nothing came"
	}
}

func here(t *testing.T) []string {
	b, err := vilgoued.CreateKeyValue(&vilgoued.KeyValueConfig{Bucket: "settings", History: 5})
	if err != nil {
		t.Fatal(err)
	}
	defer b.Close()
	return use[vilgoued.KeyValueEntry, vilgoued.KeyWatcher, vilgoued.KeyValueStatus, vilgoued.WatchOpt, vilgoued.DeleteOpt](
		b, refusals{vilgoued.ErrKeyExists, vilgoued.ErrKeyNotFound, vilgoued.ErrInvalidKey, vilgoued.ErrWrongLastRevision},
		vilgoued.IgnoreDeletes(), vilgoued.LastRevision)
}

func TestTheFunctionRunsOnThisBucket(t *testing.T) {
	seen := strings.Join(here(t), "\n")
	t.Log(seen)
	for _, wanted := range []string{
		"create what is there: 0, refused: ErrKeyExists", "update at another revision: another last revision true",
		"get what was deleted: 0, refused: ErrKeyNotFound", "get by no key: 0, refused: ErrInvalidKey",
	} {
		if !strings.Contains(seen, wanted) {
			t.Error("it is not told: ", wanted)
		}
	}
}

func TestTheFunctionSeesTheSameOnABucketOfNATS(t *testing.T) {
	url := os.Getenv("VILGOUED_SERVER")
	if url == "" {
		t.Skip("there is no nats-server")
	}
	connection, err := nats.Connect(url)
	if err != nil {
		t.Fatal(err)
	}
	defer connection.Close()
	js, err := connection.JetStream()
	if err != nil {
		t.Fatal(err)
	}
	b, err := js.CreateKeyValue(&nats.KeyValueConfig{Bucket: "settings-of-go", History: 5, Storage: nats.MemoryStorage})
	if err != nil {
		t.Fatal(err)
	}
	defer func() { _ = js.DeleteKeyValue("settings-of-go") }()
	there := use[nats.KeyValueEntry, nats.KeyWatcher, nats.KeyValueStatus, nats.WatchOpt, nats.DeleteOpt](
		b, refusals{nats.ErrKeyExists, nats.ErrKeyNotFound, nats.ErrInvalidKey, nats.ErrKeyExists}, nats.IgnoreDeletes(), nats.LastRevision)
	wanted := here(t)
	for at, line := range wanted {
		if at >= len(there) || there[at] != line {
			t.Fatalf("line %d: there %v, here %q", at, there[at:], line)
		}
	}
	if len(there) != len(wanted) {
		t.Fatal(there[len(wanted):])
	}
}
