/* The text program: a script on standard input, answers and maps on standard output. */
#define _GNU_SOURCE /* memrchr */
#include "library.c"

#include "fields.h"
#include "print.h"
#include <stdio.h>
#include <unistd.h>

enum { BLOCK = 1 << 16, LINE_MOST = 64, SPARE = 16, SHEET_MOST = 2800 };

static uint32_t state[RIF_STATE_WORDS];
static unsigned char in[LINE_MOST + 1 + BLOCK + SPARE], out[BLOCK];

/* Writes what is there, and gives the place for what comes next. */
static unsigned char *flush(unsigned char *end) {
    for (unsigned char *from = out; from < end;) {
        ssize_t wrote = write(STDOUT_FILENO, from, end - from);
        if (wrote < 0) {
            perror("standard output");
            _exit(1);
        }
        from += wrote;
    }
    return out;
}

static unsigned char *put_map(unsigned char *to, uint32_t guard) {
    uint64_t numbers[RIF_MAP_NUMBERS], used;
    uint64_t got = yard_map(state, RIF_STATE_WORDS, guard, numbers, RIF_MAP_NUMBERS, &used);
    if (got)
        return put_answer(to, got);
    to = PUT_COUNTED(to, "guard", guard);
    for (uint64_t i = 0; i < used; i += 3)
        to = put_span(to, numbers + i);
    return PUT_COUNTED(to, "end", used / 3);
}

/* The block of a register line, and of a RISAF its number. */
static inline bool block_fields(place *p, uint32_t *block, uint32_t *guard) {
    uint32_t four = load4(*p);
    place rest = *p + 4;
    if (four == FOUR('\t', 'r', 'i', 's') && rest[0] == 'a' && rest[1] == 'f') {
        rest += 2;
        *block = RIF_RISAF;
        if (!decimal(&rest, guard))
            return false;
    } else if (four == FOUR('\t', 'r', 'i', 'f') && rest[0] == 's' && rest[1] == 'c') {
        rest += 2;
        *block = RIF_RIFSC;
    } else if (four == FOUR('\t', 'i', 'a', 'c'))
        *block = RIF_IAC;
    else
        return false;
    *p = rest;
    return true;
}

/* r, w or x. */
static inline bool operation_field(place *p, uint32_t *operation) {
    if (**p != '\t')
        return false;
    switch ((*p)[1]) {
    case 'r':
        *operation = RIF_READ;
        break;
    case 'w':
        *operation = RIF_WRITE;
        break;
    case 'x':
        *operation = RIF_FETCH;
        break;
    default:
        return false;
    }
    *p += 2;
    return true;
}

/* Obeys the line at a place and prints what it gives. The place behind its feed; none where the line is bad. A line too long is no
   command, since every command is shorter. */
static inline place obey(place p, unsigned char **to) {
    uint32_t guard = 0, offset, width, cid, block, data, number;
    bool write, secure, privileged;
    uint32_t keyword = load4(p);
    p += 3;
    switch (keyword) {
    case FOUR('m', 'e', 'm', '\t'):
        if (!decimal(&p, &guard) || !hex(&p, &offset) || !decimal(&p, &width) || !either(&p, 'w', 'r', &write) ||
            !decimal(&p, &cid) || !rights(&p, &secure, &privileged))
            return NULL;
        *to = put_answer(*to, yard_memory(state, RIF_STATE_WORDS, guard, offset, width, write, cid, secure, privileged));
        return p + 1;
    case FOUR('r', 'e', 'g', '\t'):
        if (!block_fields(&p, &block, &guard) || !hex(&p, &offset) || !either(&p, 'w', 'r', &write) || !hex(&p, &data) ||
            !rights(&p, &secure, &privileged))
            return NULL;
        *to = put_answer(*to, yard_register(state, RIF_STATE_WORDS, block, guard, offset, write, data, secure, privileged));
        return p + 1;
    case FOUR('p', 'e', 'r', '\t'):
        if (!decimal(&p, &number) || !operation_field(&p, &data) || !rights(&p, &secure, &privileged))
            return NULL;
        *to = put_answer(*to, yard_peripheral(state, RIF_STATE_WORDS, number, data, secure, privileged));
        return p + 1;
    case FOUR('d', 'm', 'a', '\t'):
        if (!decimal(&p, &number) || !decimal(&p, &guard) || !hex(&p, &offset) || !decimal(&p, &width) ||
            !either(&p, 'w', 'r', &write) || *p != '\n')
            return NULL;
        *to = put_answer(*to, yard_master(state, RIF_STATE_WORDS, number, guard, offset, width, write));
        return p + 1;
    case FOUR('m', 'a', 'p', '\t'):
        if (!decimal(&p, &guard) || *p != '\n')
            return NULL;
        *to = put_map(*to, guard);
        return p + 1;
    case FOUR('r', 'e', 's', 'e'):
        if (p[1] != 't' || p[2] != '\n')
            return NULL;
        *to = put_answer(*to, yard_reset(state, RIF_STATE_WORDS));
        return p + 3;
    default:
        return NULL;
    }
}

int main(void) {
    uint64_t number = 1;
    size_t held = 0; /* bytes of an unfinished line, at the front */
    ssize_t got;
    yard_reset(state, RIF_STATE_WORDS);
    while ((got = read(STDIN_FILENO, in + held, BLOCK)) > 0) {
        place p = in, end = in + held + got, feed = memrchr(in + held, '\n', got);
        unsigned char *to = out;
        for (; feed && p <= feed; number++) {
            if (to > out + sizeof out - SHEET_MOST)
                to = flush(to);
            place next = obey(p, &to);
            if (!next) {
                to = PUT_COUNTED(to, "bad", number);
                next = (place)memchr(p, '\n', end - p) + 1;
            }
            p = next;
        }
        flush(to);
        /* A line too long stays too long when it is cut. */
        held = end - p > LINE_MOST ? LINE_MOST + 1 : end - p;
        memmove(in, p, held);
    }
    if (got < 0) {
        perror("standard input");
        return 1;
    }
    if (held)
        flush(PUT_COUNTED(out, "bad", number));
    return 0;
}
