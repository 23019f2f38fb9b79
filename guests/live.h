/* What a server in C takes from the host to be updated live, and what it gives. It is read by stock clang for the
   target wasm32, and needs no library:

     clang --target=wasm32 -mcpu=mvp -O2 -nostdlib -ffreestanding -Wl,--no-entry -Wl,--strip-all \
         -Wl,--stack-first -Wl,-z,stack-size=8192 -Wl,--export=store -o server.wasm server.c

   A module exports `_start`, in which it runs from its beginning to its end. One that is to take over from a version
   that runs exports two functions more:

     EXPORT("live_transform") int32_t transform(void)   makes its state of the old version's; 0 says that it is made
     EXPORT("live_resume") void resume(void)            goes on with that state, in place of _start

   `-Wl,--export=store` gives away where the variable `store` stands, as an exported global that the next version's
   transformer asks for by live_old_global. docs/GUESTS.md tells how such a server is written, tried and updated;
   kv.c is one, with its update. */
#ifndef LIVE_H
#define LIVE_H
#include <stddef.h>
#include <stdint.h>

#define IMPORT(module, name) __attribute__((import_module(module), import_name(name)))
#define EXPORT(name) __attribute__((export_name(name)))

/* An update point: the host may go on with another version here, which begins in its live_resume. All that has to
   outlive the update stands in memory or in exported globals by then; locals and the stack are lost. Answers 0. */
IMPORT("live", "point") int32_t live_point(void);

/* The next three are for live_transform alone; everywhere else they trap. */

/* The size of the old version's memory, in pages of 65,536 bytes. */
IMPORT("live", "old_pages") int32_t live_old_pages(void);

/* Copies len bytes of the old version's memory at src to dst. 0 where it did; 1 where either range is out of bounds, and
   then nothing is copied. */
IMPORT("live", "old_read") int32_t live_old_read(uint32_t src, uint32_t dst, uint32_t len);

/* The old version's exported global with this number, in the order of its exports, from 0: of an exported variable of C
   its address. Traps where there is none. */
IMPORT("live", "old_global") int64_t live_old_global(uint32_t number);

/* The calls of WASI preview 1 that a server makes. Each answers an errno, or 0. */
#define WASI(name) IMPORT("wasi_snapshot_preview1", name)

enum {
    LISTENER = 3,   /* the descriptor of the listener; an accepted connection has a number from 4 on */
    TRY_AGAIN = 6,  /* nothing is there yet, or a connection takes no bytes now */
    BAD_FD = 8,     /* no such descriptor */
    IO_ERROR = 29   /* the connection is broken */
};

typedef struct {
    void *buf;
    uint32_t len;
} iovec;

/* What poll_oneoff waits for. */
enum { POLL_CLOCK = 0, POLL_READ = 1, POLL_WRITE = 2 };

typedef struct {
    uint64_t userdata; /* any number; the event has it again */
    uint8_t tag;       /* POLL_READ, POLL_WRITE or POLL_CLOCK */
    uint8_t unused[7]; /* so that the next stands at 16 */
    uint32_t fd;       /* of a clock its id: 0 the time of day, 1 a clock that never goes back */
    uint64_t timeout;  /* of a clock, in nanoseconds */
    uint64_t precision;
    uint16_t flags; /* of a clock: 1 where the timeout is a moment, 0 where it counts from now */
} subscription;

typedef struct {
    uint64_t userdata;
    uint16_t error; /* an errno, or 0 */
    uint8_t tag;
    uint64_t nbytes;
    uint16_t flags;
} event;

_Static_assert(sizeof(subscription) == 48 && offsetof(subscription, fd) == 16, "a subscription has 48 bytes");
_Static_assert(sizeof(event) == 32 && offsetof(event, nbytes) == 16, "an event has 32 bytes");

/* Waits for about a tenth of a second at most. *count is how many events there are: 0 where nothing came about. A write to
   a connection has always come about, also where fd_write then answers TRY_AGAIN; a read of standard input never has. */
WASI("poll_oneoff") int32_t poll_oneoff(const void *subscriptions, void *events, uint32_t n, uint32_t *count);

/* The next four never wait. fd_read reads 0 bytes at the connection's end; fd_write may take fewer bytes than given. */
WASI("sock_accept") int32_t sock_accept(uint32_t fd, uint32_t flags, uint32_t *out);
WASI("fd_read") int32_t fd_read(uint32_t fd, const iovec *iovs, uint32_t count, uint32_t *out);
WASI("fd_write") int32_t fd_write(uint32_t fd, const iovec *iovs, uint32_t count, uint32_t *out);
WASI("fd_close") int32_t fd_close(uint32_t fd);

/* how: 1 no more reads, 2 no more writes, 3 both. */
WASI("sock_shutdown") int32_t sock_shutdown(uint32_t fd, uint32_t how);

/* The time in nanoseconds, of the clock 0 or 1 as above; the precision says nothing. */
WASI("clock_time_get") int32_t clock_time_get(uint32_t id, uint64_t precision, uint64_t *out);

/* At most 65,536 bytes. */
WASI("random_get") int32_t random_get(void *buf, uint32_t len);

/* The server's arguments: how many, and how many bytes they have together, each with a zero behind it; then the places. */
WASI("args_sizes_get") int32_t args_sizes_get(uint32_t *count, uint32_t *size);
WASI("args_get") int32_t args_get(char **list, char *buf);

/* Ends the run. */
WASI("proc_exit") void proc_exit(uint32_t code);

#endif
