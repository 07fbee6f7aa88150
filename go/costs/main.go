// Prints what calls take here, and the calls of C that they make: nanoseconds, the least of some rounds, and what is added.
package main

/*
#cgo CFLAGS: -std=gnu11 -O2 -I${SRCDIR}/../../include
#cgo LDFLAGS: -L${SRCDIR}/../../lib -l:libvilgoued.a -lpthread

#include <stdio.h>
#include <string.h>
#include <time.h>
#include "vilgoued_shared.h"

enum { KEYS = 16, CALLS = 2000 };
static char keys[KEYS][32];
static kv_shared shared;
static kv_reader reader;
static kv_follower follower;
static uint8_t room[1024], name[255];

#define KEY(i) (const uint8_t *)keys[(i) % KEYS], strlen(keys[(i) % KEYS])
#define VALUE (const uint8_t *)"0123456789abcdef", 16

static double now(void) {
    struct timespec it;
    clock_gettime(CLOCK_MONOTONIC, &it);
    return (double)it.tv_sec * 1e9 + (double)it.tv_nsec;
}
static int prepare(void) {
    kv_limits limits = {1, 1048576, 1000000, 4294967295};
    uint64_t revision, code = kv_shared_open(&shared, (const uint8_t *)"costs", 5, &limits);
    for (int i = 0; i < KEYS; i++) {
        snprintf(keys[i], sizeof keys[i], "device.%d.state", i);
        code |= kv_shared_put(&shared, KEY(i), VALUE, &revision);
    }
    return (int)(code | kv_reader_open(&shared, &reader));
}
static double reader_gets(void) {
    size_t size;
    uint64_t revision;
    double began = now();
    for (int i = 0; i < CALLS; i++)
        kv_reader_get(&reader, KEY(i), room, sizeof room, &size, &revision);
    return (now() - began) / CALLS;
}
static double gets(void) {
    size_t size;
    uint64_t revision;
    double began = now();
    for (int i = 0; i < CALLS; i++)
        kv_shared_get(&shared, KEY(i), room, sizeof room, &size, &revision);
    return (now() - began) / CALLS;
}
static void follow(void) {
    kv_options updates = {KV_UPDATES, 0, false, false};
    kv_follower_close(&follower);
    kv_follower_open(&shared, (const uint8_t *)">", 1, &updates, &follower);
}
static double puts_(void) {
    uint64_t revision;
    double began = now();
    for (int i = 0; i < CALLS; i++)
        kv_shared_put(&shared, KEY(i), VALUE, &revision);
    return (now() - began) / CALLS;
}
static double items(void) {
    kv_item item;
    uint64_t floor;
    double began = now();
    for (int i = 0; i < CALLS; i++)
        kv_follower_next(&follower, 0, name, sizeof name, room, sizeof room, &item, &floor);
    return (now() - began) / CALLS;
}
*/
import "C"

import (
	"context"
	"fmt"
	"time"
	"vilgoued"
)

const (
	keys   = C.KEYS
	calls  = C.CALLS
	rounds = 200
)

func must[T any](it T, err error) T {
	if err != nil {
		panic(err)
	}
	return it
}

func timed(call func(at int)) float64 {
	began := time.Now()
	for at := 0; at < calls; at++ {
		call(at)
	}
	return float64(time.Since(began).Nanoseconds()) / calls
}

// The two in turn, so that what else the machine does is beside both.
func compare(name string, ofC func() float64, here func() float64) {
	least, leastHere := 1e9, 1e9
	for round := 0; round < rounds; round++ {
		if it := ofC(); it < least {
			least = it
		}
		if it := here(); it < leastHere {
			leastHere = it
		}
	}
	fmt.Printf("%s: %.0f ns in C, %.0f ns here, %.0f ns added\n", name, least, leastHere, leastHere-least)
}

func main() {
	if C.prepare() != 0 {
		panic("no bucket")
	}
	b := must(vilgoued.CreateKeyValue(&vilgoued.KeyValueConfig{Bucket: "costs"}))
	names := make([]string, keys)
	value := []byte("0123456789abcdef")
	for at := range names {
		names[at] = fmt.Sprintf("device.%d.state", at)
		must(b.Put(names[at], value))
	}
	reader := must(b.Reader())
	compare("get of a reader", func() float64 { return float64(C.reader_gets()) },
		func() float64 { return timed(func(at int) { must(reader.Get(names[at%keys])) }) })
	compare("get of a bucket", func() float64 { return float64(C.gets()) },
		func() float64 { return timed(func(at int) { must(b.Get(names[at%keys])) }) })
	var follower *vilgoued.Follower
	ctx := context.Background()
	items := []float64{1e9, 1e9}
	compare("put", func() float64 {
		C.follow()
		took := float64(C.puts_())
		if it := float64(C.items()); it < items[0] {
			items[0] = it
		}
		return took
	}, func() float64 {
		follower = must(b.Follow(">", vilgoued.UpdatesOnly()))
		took := timed(func(at int) { must(b.Put(names[at%keys], value)) })
		if it := timed(func(int) { must(follower.Next(ctx)) }); it < items[1] {
			items[1] = it
		}
		follower.Close()
		return took
	})
	compare("item of a follower", func() float64 { return items[0] }, func() float64 { return items[1] })
}
