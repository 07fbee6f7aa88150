package vilgoued

import (
	"errors"
	"os"
	"path/filepath"
	"testing"
)

func TestABucketWithAFileComesAgain(t *testing.T) {
	config := KeyValueConfig{Bucket: "settings", Path: filepath.Join(t.TempDir(), "settings.kv")}
	for _, every := range []int{0, 3, -1} {
		config.SyncEvery = every
		bucket, err := CreateKeyValue(&config)
		if err != nil {
			t.Fatal(err)
		}
		if _, err := CreateKeyValue(&config); !errors.Is(err, ErrFileBusy) {
			t.Fatalf("a second opening: %v", err)
		}
		if _, err := bucket.PutString("app.port", "80"); err != nil {
			t.Fatal(err)
		}
		if err := bucket.Sync(); err != nil {
			t.Fatal(err)
		}
		if err := bucket.Checkpoint(); err != nil {
			t.Fatal(err)
		}
		bucket.Close()
	}
	file, err := os.OpenFile(config.Path, os.O_WRONLY|os.O_APPEND, 0)
	if err != nil {
		t.Fatal(err)
	}
	if _, err := file.WriteString("torn"); err != nil {
		t.Fatal(err)
	}
	file.Close()
	bucket, err := CreateKeyValue(&config)
	if err != nil {
		t.Fatal(err)
	}
	entry, err := bucket.Get("app.port")
	if err != nil || entry.Revision() != 3 || bucket.Dropped() != 4 {
		t.Fatalf("%v, %v, dropped %d", entry, err, bucket.Dropped())
	}
	bucket.Close()
}

func TestACheckpointLeavesTheBucketAndACompactionMakesItsFileSmall(t *testing.T) {
	config := KeyValueConfig{Bucket: "settings", Path: filepath.Join(t.TempDir(), "settings.kv"), SyncEvery: -1}
	bucket, err := CreateKeyValue(&config)
	if err != nil {
		t.Fatal(err)
	}
	for i := 0; i < 100; i++ {
		if _, err := bucket.PutString("app.port", "80"); err != nil {
			t.Fatal(err)
		}
	}
	before := sizeOf(t, config.Path)
	if err := bucket.Checkpoint(); err != nil {
		t.Fatal(err)
	}
	if err := bucket.Compact(100); err != nil {
		t.Fatal(err)
	}
	if after := sizeOf(t, config.Path); after*2 > before {
		t.Fatalf("%d bytes before, and %d behind it", before, after)
	}
	if _, err := bucket.PutString("app.port", "81"); err != nil {
		t.Fatal(err)
	}
	bucket.Close()
	if err := bucket.Checkpoint(); !errors.Is(err, ErrClosed) {
		t.Fatal(err)
	}
	if bucket, err = CreateKeyValue(&config); err != nil {
		t.Fatal(err)
	}
	entry, err := bucket.Get("app.port")
	if err != nil || entry.Revision() != 101 || string(entry.Value()) != "81" {
		t.Fatalf("%v, %v", entry, err)
	}
	bucket.Close()
}

func sizeOf(t *testing.T, path string) int64 {
	t.Helper()
	found, err := os.Stat(path)
	if err != nil {
		t.Fatal(err)
	}
	return found.Size()
}

func TestAFileOfAnotherBucketOrOfNoneIsRefused(t *testing.T) {
	config := KeyValueConfig{Bucket: "settings", Path: filepath.Join(t.TempDir(), "settings.kv")}
	bucket, err := CreateKeyValue(&config)
	if err != nil {
		t.Fatal(err)
	}
	bucket.Close()
	config.History = 2
	if _, err := CreateKeyValue(&config); !errors.Is(err, ErrOtherBucket) {
		t.Fatalf("a file of another bucket: %v", err)
	}
	if err := os.WriteFile(config.Path, []byte("no journal"), 0o600); err != nil {
		t.Fatal(err)
	}
	var damaged FileDamaged
	if _, err := CreateKeyValue(&config); !errors.As(err, &damaged) || damaged.At != 0 || !errors.Is(err, ErrFileDamaged) {
		t.Fatalf("a file of none: %v", err)
	}
}
