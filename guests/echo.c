/* A server that answers each read by REPLY, one connection at a time. Its two versions differ in REPLY alone. */
#include "live.h"

#ifndef REPLY
#define REPLY "OK\n"
#endif

/* All state, at one place in both versions, behind the stack and before the globals (see build.sh). */
struct state {
    uint32_t connection; /* 0 where there is none */
    uint32_t answered;
};
static struct state *const state = (struct state *)12288;

static subscription wanted;
static event happened;
static char text[64];

/* Waits until the descriptor can be read, or a while has passed. */
static void wait_for(uint32_t fd) {
    uint32_t n;
    wanted.tag = POLL_READ;
    wanted.fd = fd;
    poll_oneoff(&wanted, &happened, 1, &n);
}

static void accept_one(void) {
    uint32_t fd;
    int32_t e = sock_accept(LISTENER, 0, &fd);
    if (e == TRY_AGAIN) {
        wait_for(LISTENER);
    } else if (e) {
        proc_exit(1);
    } else {
        state->connection = fd;
    }
}

static void answer_one(void) {
    uint32_t n;
    iovec in = {text, sizeof text};
    int32_t e = fd_read(state->connection, &in, 1, &n);
    if (e == TRY_AGAIN) {
        wait_for(state->connection);
    } else if (e || n == 0) {
        fd_close(state->connection);
        state->connection = 0;
    } else {
        iovec out = {REPLY, sizeof REPLY - 1};
        fd_write(state->connection, &out, 1, &n);
        state->answered++;
    }
}

static void serve(void) {
    for (;;) {
        live_point();
        if (state->connection) {
            answer_one();
        } else {
            accept_one();
        }
    }
}

EXPORT("_start") void start(void) { serve(); }

EXPORT("live_resume") void resume(void) { serve(); }

EXPORT("live_transform") int32_t transform(void) {
    return live_old_read((uint32_t)state, (uint32_t)state, sizeof *state);
}
