#!/usr/bin/env python3
"""Refuses one request for memory of the proved program, the first, the second and so on, on a session that retracts, goes
back and measures again; and compares.

    bench/refuse_memory.py [SESSION]      without SESSION, one on the polybox

A line that is answered `no 90 no memory` must be as if it were not there: the other replies are those of the session
without it. Where the words of the command line or opening find no memory, nothing is read and nothing written, and the
exit status is 7 or 6. A library that counts and refuses is compiled and loaded before the C library, so this needs a C
compiler, and is no part of what `.ci/run` tries.
"""
import os
import subprocess
import sys
import tempfile

TOP = os.path.dirname(os.path.dirname(os.path.abspath(__file__)))
PROGRAM = os.path.join(TOP, "crates", "gde", "out", "gde")
NO_MEMORY = b"no 90 no memory"
REFUSER = r"""
#define _GNU_SOURCE
#include <dlfcn.h>
#include <errno.h>
#include <stdio.h>
#include <stdlib.h>

static long asked, refused = -1;

static int is_refused(void) {
    if (refused < 0) {
        const char *word = getenv("REFUSED");
        refused = word ? atol(word) : 0;
    }
    return ++asked == refused;
}

__attribute__((destructor)) static void tell(void) {
    const char *name = getenv("ASKED");
    FILE *file = name ? fopen(name, "w") : NULL;
    if (file) {
        fprintf(file, "%ld", asked);
        fclose(file);
    }
}

void *malloc(size_t size) {
    static void *(*next)(size_t);
    if (!next) next = dlsym(RTLD_NEXT, "malloc");
    return is_refused() ? NULL : next(size);
}

void *realloc(void *old, size_t size) {
    static void *(*next)(void *, size_t);
    if (!next) next = dlsym(RTLD_NEXT, "realloc");
    return is_refused() ? NULL : next(old, size);
}

int posix_memalign(void **place, size_t align, size_t size) {
    static int (*next)(void **, size_t, size_t);
    if (!next) next = dlsym(RTLD_NEXT, "posix_memalign");
    return is_refused() ? ENOMEM : next(place, align, size);
}

void *aligned_alloc(size_t align, size_t size) {
    static void *(*next)(size_t, size_t);
    if (!next) next = dlsym(RTLD_NEXT, "aligned_alloc");
    return is_refused() ? NULL : next(align, size);
}
"""
POLYBOX = """net A 4|net B 4|net C 4|net D 4|net E 4|net X 8|net Y 8|net Z 8|net F 8|net G 8|mul M1 A C X|mul M2 B D Y|mul M3 C E Z
add A1 X Y F|add A2 Y Z G|measure A 3|measure B 2|measure C 2|measure D 3|measure E 3|measure F 10|measure G 12|conflicts
diagnose|probe|why 1|retract F|conflicts|measure F 10|conflicts|measure X 6|label X|undo|undo|undo|label F|retract G|undo
cost M2 1|stuck M1 3 2|first 3|explain X 4|measure Y 6|retract Y|measure Y 6|diagnose|show"""


def run(refuser, room, lines, refused):
    """The exit status, the replies and how often memory was asked for, where the request of this number is refused."""
    asked = os.path.join(room, "asked")
    environment = dict(os.environ, LD_PRELOAD=refuser, REFUSED=str(refused), ASKED=asked)
    text = b"".join(line + b"\n" for line in lines)
    done = subprocess.run([PROGRAM, "run"], input=text, stdout=subprocess.PIPE, env=environment, check=False)
    with open(asked, encoding="ascii") as file:
        return done.returncode, done.stdout.splitlines(), int(file.read())


def replies_of(lines, told):
    """The reply to each line, where each line has one: it ends with `ok`, with a refusal, or with `# end`."""
    replies, reply = [], []
    for line in told:
        reply.append(line)
        if line == b"ok" or line.startswith(b"no ") or line == b"# end":
            replies.append(reply)
            reply = []
    assert not reply and len(replies) == len(lines), "each line has one reply"
    return replies


def main():
    if len(sys.argv) > 1:
        with open(sys.argv[1], "rb") as file:
            words = file.read().splitlines()
    else:
        words = POLYBOX.replace("\n", "|").encode().split(b"|")
    lines = [line for line in words if line.split() and not line.split()[0].startswith(b"#")]
    with tempfile.TemporaryDirectory() as room:
        source, refuser = os.path.join(room, "refuser.c"), os.path.join(room, "refuser.so")
        with open(source, "w", encoding="ascii") as file:
            file.write(REFUSER)
        subprocess.run(["cc", "-shared", "-fPIC", "-O1", "-o", refuser, source, "-ldl"], check=True)
        _, _, most = run(refuser, room, lines, 0)
        wrong = opening = 0
        for refused in range(1, most + 1):
            status, told, _ = run(refuser, room, lines, refused)
            if status in (6, 7) and not told:
                opening += 1
                continue
            replies = replies_of(lines, told)
            kept = [(line, reply) for line, reply in zip(lines, replies) if reply != [NO_MEMORY]]
            _, fresh, _ = run(refuser, room, [line for line, _ in kept], 0)
            if [part for _, reply in kept for part in reply] != fresh:
                wrong += 1
                print(f"request {refused}: the lines that found memory are answered otherwise than without the others")
        print(f"{most} requests refused one by one, {opening} of them at opening: {wrong} wrong")
        sys.exit(wrong > 0)


if __name__ == "__main__":
    main()
