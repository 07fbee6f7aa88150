package vilgoued

import (
	"context"
	"sync/atomic"
)

// A lock for which a context can end the wait.
type turn struct {
	// 0: free, 1: held, 2: held, and others may wait.
	state uint32
	// Told when one that others may wait for is free.
	freed chan struct{}
}

func newTurn() turn { return turn{freed: make(chan struct{}, 1)} }

// Takes it, or is the context's error.
func (t *turn) take(ctx context.Context) error {
	if atomic.CompareAndSwapUint32(&t.state, 0, 1) {
		return nil
	}
	for atomic.SwapUint32(&t.state, 2) != 0 {
		select {
		case <-t.freed:
		case <-ctx.Done():
			return ctx.Err()
		}
	}
	return nil
}

func (t *turn) give() {
	if atomic.SwapUint32(&t.state, 0) == 2 {
		select {
		case t.freed <- struct{}{}:
		default:
		}
	}
}
