/*
 * Rooms: accessible bytes between inaccessible ones, a page before them and more than 4 GiB behind them. Each has two
 * views of the same memory: one is lent to the exports, through the other the test fills and compares it. The view that
 * is lent of a room for input cannot be written, so nothing has to be protected anew for a call.
 */
#ifndef ROOMS_H
#define ROOMS_H

#ifndef _GNU_SOURCE
#error "memfd_create needs _GNU_SOURCE, defined before the first header"
#endif
#include <signal.h>
#include <stdint.h>
#include <stdio.h>
#include <stdlib.h>
#include <string.h>
#include <sys/mman.h>
#include <unistd.h>

enum { ROOMS = 4, OUT_ROOM = 3 };
/* What the low 32 bits of a length do not show. */
static const size_t long_by = (size_t)1 << 32;
static struct {
    uint8_t *lent, *own;
} rooms[ROOMS];
static size_t room_size, page_size;

static void *map(void *at, size_t length, int how, int flags, int file)
{
    void *mapped = mmap(at, length, how, flags, file, 0);
    if (mapped == MAP_FAILED) {
        perror("rooms: mmap");
        exit(2);
    }
    return mapped;
}

static void make_rooms(void)
{
    page_size = (size_t)sysconf(_SC_PAGESIZE);
    room_size = (8192 + page_size - 1) / page_size * page_size;
    for (int i = 0; i < ROOMS; i++) {
        int file = memfd_create("room", 0);
        if (file < 0 || ftruncate(file, (off_t)room_size) != 0) {
            perror("rooms: memfd_create");
            exit(2);
        }
        const size_t reserved = page_size + room_size + long_by + page_size;
        uint8_t *all = map(NULL, reserved, PROT_NONE, MAP_PRIVATE | MAP_ANONYMOUS | MAP_NORESERVE, -1);
        int how = i == OUT_ROOM ? PROT_READ | PROT_WRITE : PROT_READ;
        rooms[i].lent = map(all + page_size, room_size, how, MAP_SHARED | MAP_FIXED, file);
        rooms[i].own = map(NULL, room_size, PROT_READ | PROT_WRITE, MAP_SHARED, file);
        close(file);
    }
}

/* Calls the handler when memory is touched that is not accessible, or not so. */
static void catch_touches(void (*handler)(int, siginfo_t *, void *))
{
    struct sigaction action = {.sa_sigaction = handler, .sa_flags = SA_SIGINFO};
    sigaction(SIGSEGV, &action, NULL);
    sigaction(SIGBUS, &action, NULL);
}

/* The last is flush behind too, but for slices that are empty. */
enum pass { BEHIND, BEFORE, NULLS };
static const char *const pass_names[] = {"flush behind", "flush before", "null where empty"};

/* Where a slice of this length stands in any room. One that is longer than its room begins where the room does. */
static size_t place_in_room(size_t length, enum pass pass)
{
    if (length > room_size + long_by) {
        fprintf(stderr, "rooms: a slice of %zu bytes has no room\n", length);
        exit(2);
    }
    return pass == BEFORE || length > room_size ? 0 : room_size - length;
}

/* What a call is handed for a slice of this length. */
static uint8_t *lend_room(int room, size_t length, enum pass pass)
{
    return pass == NULLS && length == 0 ? NULL : rooms[room].lent + place_in_room(length, pass);
}

/* The same, with these bytes in it. */
static uint8_t *lend_bytes(int room, const uint8_t *bytes, size_t length, enum pass pass)
{
    if (length > 0)
        memcpy(rooms[room].own + place_in_room(length, pass), bytes, length);
    return lend_room(room, length, pass);
}

/* What stands in the output's room before a call. */
static uint8_t filler(size_t at)
{
    return (uint8_t)(at * 37 + 11);
}

#endif
