package vilgoued_test

import (
	"context"
	"fmt"
	"runtime"
	"strings"
	"testing"
	"time"

	. "vilgoued"
)

// A bucket that is closed with its test.
func open(t testing.TB, cfg KeyValueConfig) *Bucket {
	t.Helper()
	cfg.Bucket = "settings"
	b, err := CreateKeyValue(&cfg)
	if err != nil {
		t.Fatal(err)
	}
	t.Cleanup(b.Close)
	return b
}

func put(t testing.TB, b *Bucket, key, value string) uint64 {
	t.Helper()
	revision, err := b.PutString(key, value)
	if err != nil {
		t.Fatal(err)
	}
	return revision
}

// An entry in one line, or what stands for none.
func shown(it KeyValueEntry) string {
	if it == nil {
		return "nil"
	}
	value := "nil"
	if it.Value() != nil {
		value = fmt.Sprintf("%q", it.Value())
	}
	op := strings.TrimSuffix(strings.TrimPrefix(it.Operation().String(), "KeyValue"), "Op")
	return fmt.Sprintf("%s %s %d %d %s", it.Key(), op, it.Revision(), it.Size(), value)
}

func same(t testing.TB, found, wanted any) {
	t.Helper()
	if fmt.Sprint(found) != fmt.Sprint(wanted) {
		t.Fatalf("%v, and not %v", found, wanted)
	}
}

// An error is this one, with its data.
func refusedAs(t testing.TB, err, wanted error) {
	t.Helper()
	if err != wanted {
		t.Fatalf("%#v (%v), and not %#v", err, err, wanted)
	}
}

// Some time, after which a test that waits has failed.
func soon(t testing.TB) context.Context {
	ctx, cancel := context.WithTimeout(context.Background(), 5*time.Minute)
	t.Cleanup(cancel)
	return ctx
}

// What a test does leaves no goroutine behind.
func leavesNone(t *testing.T, what func()) {
	t.Helper()
	before := runtime.NumGoroutine()
	what()
	for tries := 0; runtime.NumGoroutine() > before; tries++ {
		if tries == 60000 {
			all := make([]byte, 1<<16)
			t.Fatalf("%d goroutines, and there were %d:\n%s", runtime.NumGoroutine(), before, all[:runtime.Stack(all, true)])
		}
		time.Sleep(5 * time.Millisecond)
	}
}
