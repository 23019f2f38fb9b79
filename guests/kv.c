/* A key-value store: one command a line, one answer a line, several clients at a time.

     set KEY VALUE     +ok               the value is the rest of the line
     get KEY           =VALUE, or -none
     del KEY           +gone, or -none
     count             :N                how many keys there are
     anything else     -what

   A key, a value or a line that is too long is -long, and where there is no place left a set is -full.

   The file is one server in two versions, as a repository has it at two moments. -DVERSION=1 runs today. -DVERSION=2
   is its update:

     the state         a value may have 39 characters in place of 23, and each key counts how often it was got
     the answers       a set answers +stored in place of +ok
     a new command     hits KEY answers #N, or #none

   What version 2 has besides is at the end: its transformer, which makes its state of version 1's. */
#include "live.h"

#ifndef VERSION
#define VERSION 1
#endif

/* build.sh makes two wrong versions too: one forgets the first key in its transformer, one traps at a command that it
   doesn't know. */
#ifndef FIRST
#define FIRST 0
#endif
#ifndef TRAP
#define TRAP 0
#endif

enum { CLIENTS = 8, KEYS = 32, KEY = 16, VALUE = VERSION == 1 ? 24 : 40, LINE = 64, REPLY = 48 };

/* -------------------------------------------------------------------------------------------------------------- */
/* The state. All that has to outlive an update is in this one variable, and build.sh exports it, so that the next
   version's transformer finds it. Texts end with a zero. */

struct client {
    uint32_t fd;       /* 0: this place is free */
    uint32_t come;     /* how many bytes of `line` have come */
    uint32_t too_long; /* whether the beginning of this line was passed over */
    uint32_t sent, of; /* how many bytes of `reply` have gone out, and how many there are */
    char line[LINE];
    char reply[REPLY];
};

struct entry {
    char key[KEY]; /* empty: this place is free */
#if VERSION == 2
    uint32_t hits;
#endif
    char value[VALUE];
};

struct store {
    uint32_t version;
    struct client clients[CLIENTS];
    struct entry entries[KEYS];
};

struct store store;

/* -------------------------------------------------------------------------------------------------------------- */
/* Texts. There is no library, so this is all of string.h that the server needs. */

/* What stands behind `word` in the text, or 0 where the text doesn't begin with it. */
static const char *behind(const char *text, const char *word) {
    while (*word) {
        if (*text++ != *word++) return 0;
    }
    return text;
}

static int same(const char *a, const char *b) {
    const char *rest = behind(a, b);
    return rest && !*rest;
}

/* Copies a text up to its zero or to `stop`, and answers what stands there; or 0 where `to` has no place for it. */
static const char *copy(char *to, uint32_t place, const char *from, char stop) {
    while (place--) {
        if (*from == 0 || *from == stop) {
            *to = 0;
            return from;
        }
        *to++ = *from++;
    }
    return 0;
}

/* Adds a text to the client's reply. */
static void say(struct client *c, const char *text) {
    while (*text && c->of < REPLY) c->reply[c->of++] = *text++;
}

static void say_number(struct client *c, const char *sign, uint32_t number) {
    char digits[11];
    char *at = digits + 10;
    *at = 0;
    do {
        *--at = (char)('0' + number % 10);
        number /= 10;
    } while (number);
    say(c, sign);
    say(c, at);
    say(c, "\n");
}

/* -------------------------------------------------------------------------------------------------------------- */
/* The commands. Each makes one whole reply. */

static struct entry *find(const char *key) {
    for (uint32_t i = 0; i < KEYS; i++) {
        if (same(store.entries[i].key, key)) return &store.entries[i];
    }
    return 0;
}

/* The entry that the command is about, or 0, and then the reply says why. */
static struct entry *named(struct client *c, const char *key) {
    struct entry *e = *key ? find(key) : 0;
    if (!e) say(c, "-none\n");
    return e;
}

static void set(struct client *c, const char *rest) {
    char key[KEY], value[VALUE];
    const char *space = copy(key, KEY, rest, ' ');
    if (space && (space == rest || *space == 0)) {
        say(c, "-what\n");
    } else if (!space || !copy(value, VALUE, space + 1, 0)) {
        say(c, "-long\n");
    } else {
        struct entry *e = find(key);
        if (!e) e = find("");
        if (!e) {
            say(c, "-full\n");
            return;
        }
        copy(e->key, KEY, key, 0);
        copy(e->value, VALUE, value, 0);
        say(c, VERSION == 1 ? "+ok\n" : "+stored\n");
    }
}

static void get(struct client *c, const char *key) {
    struct entry *e = named(c, key);
    if (e) {
#if VERSION == 2
        e->hits++;
#endif
        say(c, "=");
        say(c, e->value);
        say(c, "\n");
    }
}

static void del(struct client *c, const char *key) {
    struct entry *e = named(c, key);
    if (e) {
        e->key[0] = 0;
#if VERSION == 2
        e->hits = 0;
#endif
        say(c, "+gone\n");
    }
}

static void count(struct client *c) {
    uint32_t n = 0;
    for (uint32_t i = 0; i < KEYS; i++) n += store.entries[i].key[0] != 0;
    say_number(c, ":", n);
}

#if VERSION == 2
/* All that it answers begins with #, and nothing else does: so one rule can say that version 1 doesn't know it. */
static void hits(struct client *c, const char *key) {
    struct entry *e = *key ? find(key) : 0;
    if (e) {
        say_number(c, "#", e->hits);
    } else {
        say(c, "#none\n");
    }
}
#endif

/* Answers the command in the client's line, which ends with a zero. */
static void answer(struct client *c) {
    const char *rest;
    if ((rest = behind(c->line, "set "))) {
        set(c, rest);
    } else if ((rest = behind(c->line, "get "))) {
        get(c, rest);
    } else if ((rest = behind(c->line, "del "))) {
        del(c, rest);
    } else if (same(c->line, "count")) {
        count(c);
#if VERSION == 2
    } else if ((rest = behind(c->line, "hits "))) {
        hits(c, rest);
#endif
    } else {
        if (TRAP) __builtin_trap();
        say(c, "-what\n");
    }
}

/* -------------------------------------------------------------------------------------------------------------- */
/* The connections. Whatever stops half-way, as a line of which a part has come or a reply of which a part is gone, stands
   in `struct client`, and not in a function that would have to go on. */

static void drop(struct client *c) {
    fd_close(c->fd);
    c->fd = c->come = c->too_long = c->sent = c->of = 0;
}

/* Sends what is left of the reply. Each reply is one write, so that a rule can name it. */
static void send(struct client *c) {
    uint32_t n = 0;
    iovec left = {c->reply + c->sent, c->of - c->sent};
    int32_t e = fd_write(c->fd, &left, 1, &n);
    if (e == TRY_AGAIN) return;
    if (e) {
        drop(c);
        return;
    }
    c->sent += n;
    if (c->sent == c->of) c->sent = c->of = 0;
}

/* Reads what fits into the line. */
static void receive(struct client *c) {
    uint32_t n = 0;
    iovec place = {c->line + c->come, LINE - c->come};
    int32_t e = fd_read(c->fd, &place, 1, &n);
    if (e == TRY_AGAIN) return;
    if (e || n == 0) {
        drop(c);
        return;
    }
    c->come += n;
}

/* Answers the first line that has come whole, and takes it away. 0 where there is none. */
static int answer_line(struct client *c) {
    uint32_t end = 0;
    while (end < c->come && c->line[end] != '\n') end++;
    if (end == LINE) {
        c->too_long = 1; /* its end is still to come */
        c->come = 0;
        return 0;
    }
    if (end == c->come) return 0;
    c->line[end] = 0;
    if (c->too_long) {
        say(c, "-long\n");
    } else {
        answer(c);
    }
    c->too_long = 0;
    c->come -= end + 1;
    for (uint32_t i = 0; i < c->come; i++) c->line[i] = c->line[end + 1 + i];
    return 1;
}

/* Does what the client waits for: the rest of its reply, or its next lines. */
static void go_on(struct client *c) {
    if (c->of) {
        send(c);
    } else {
        receive(c);
    }
    while (c->fd && !c->of && answer_line(c)) send(c);
}

static void accept_one(void) {
    uint32_t fd;
    if (sock_accept(LISTENER, 0, &fd)) return;
    for (uint32_t i = 0; i < CLIENTS; i++) {
        if (!store.clients[i].fd) {
            store.clients[i].fd = fd;
            return;
        }
    }
    fd_close(fd);
}

/* -------------------------------------------------------------------------------------------------------------- */

static subscription wanted[CLIENTS + 1];
static event happened[CLIENTS + 1];

/* Waits until something can be done for somebody, or a while has passed, and does it. A reply that wasn't taken whole is
   offered again at each turn: poll_oneoff says of every connection that it can be written to. */
static void turn(void) {
    uint32_t n = 1, came = 0;
    wanted[0].tag = POLL_READ;
    wanted[0].fd = LISTENER;
    wanted[0].userdata = CLIENTS;
    for (uint32_t i = 0; i < CLIENTS; i++) {
        struct client *c = &store.clients[i];
        if (c->fd && c->of) go_on(c);
        if (c->fd && !c->of) {
            wanted[n].tag = POLL_READ;
            wanted[n].fd = c->fd;
            wanted[n].userdata = i;
            n++;
        }
    }
    if (poll_oneoff(wanted, happened, n, &came)) proc_exit(1);
    for (uint32_t i = 0; i < came; i++) {
        uint32_t who = (uint32_t)happened[i].userdata;
        if (who < CLIENTS) {
            go_on(&store.clients[who]);
        } else {
            accept_one();
        }
    }
}

/* The one update point: between two turns nothing that matters is in a local, and each reply has been made whole. */
static void serve(void) {
    for (;;) {
        live_point();
        turn();
    }
}

EXPORT("_start") void start(void) {
    store.version = VERSION;
    serve();
}

#if VERSION == 2
/* -------------------------------------------------------------------------------------------------------------- */
/* The update. What version 1 had, where it is another than here: */

struct old_entry {
    char key[16];
    char value[24];
};

struct old_store {
    uint32_t version;
    struct client clients[CLIENTS];
    struct old_entry entries[KEYS];
};

enum { NOT_VERSION_1 = 1, OUT_OF_BOUNDS = 2 };

static int old_read(uint32_t src, void *dst, uint32_t len) { return live_old_read(src, (uint32_t)dst, len); }

EXPORT("live_transform") int32_t transform(void) {
    uint32_t old = (uint32_t)live_old_global(0); /* where version 1 has its store */
    uint32_t version = 0;
    if (old_read(old, &version, sizeof version)) return OUT_OF_BOUNDS;
    if (version != 1) return NOT_VERSION_1;

    store.version = VERSION;

    /* The clients have the same form in both. */
    if (old_read(old + offsetof(struct old_store, clients), store.clients, sizeof store.clients)) return OUT_OF_BOUNDS;

    /* The entries are converted one by one. */
    for (uint32_t i = FIRST; i < KEYS; i++) {
        struct old_entry was;
        uint32_t at = old + offsetof(struct old_store, entries) + i * sizeof was;
        if (old_read(at, &was, sizeof was)) return OUT_OF_BOUNDS;
        copy(store.entries[i].key, KEY, was.key, 0);
        copy(store.entries[i].value, VALUE, was.value, 0);
        store.entries[i].hits = 0;
    }

    /* A reply that version 1 has made and not begun to send goes out in the words of version 2, as the rules have it. */
    for (uint32_t i = 0; i < CLIENTS; i++) {
        struct client *c = &store.clients[i];
        if (c->sent == 0 && c->of == 4 && c->reply[0] == '+' && c->reply[1] == 'o') {
            c->of = 0;
            say(c, "+stored\n");
        }
    }
    return 0;
}

EXPORT("live_resume") void resume(void) { serve(); }
#endif
