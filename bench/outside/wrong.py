"""Programs with one fault each: the built program behind a shell script, or behind a library that answers some calls wrongly. And two
that stand behind such a script or library without a fault.
"""
import os
import subprocess

from outside.rooms import has
from tools import BUILT

NO_FAULT = "has no fault"
SCRIPTS = (
    (NO_FAULT, '"$PROGRAM" "$@"'),
    ("ends with 0 always", '"$PROGRAM" "$@"; exit 0'),
    ("ends with 1 where it doesn't end well", '"$PROGRAM" "$@" || exit 1'),
    ("splits words", '"$PROGRAM" $*'),
    ("joins words", '"$PROGRAM" "$*"'),
    ("drops empty words", 'for word; do shift; [ -z "$word" ] || set -- "$@" "$word"; done; "$PROGRAM" "$@"'),
    ("drops newlines at the ends of words", 'for word; do shift; set -- "$@" "$(printf %s "$word")"; done; "$PROGRAM" "$@"'),
    ("reads backslashes in words", 'for word; do shift; set -- "$@" "$(printf "%bx" "$word")"; set -- "${@%x}"; done; "$PROGRAM" "$@"'),
    ("tells its line on standard output", '"$PROGRAM" "$@" 2>&1'),
    ("tells no line", '"$PROGRAM" "$@" 2>/dev/null'),
    ("tells its line twice", 'line=$("$PROGRAM" "$@" 2>&1 >&3); code=$?; [ -z "$line" ] || printf "%s\\n%s\\n" "$line" "$line" >&2; exit $code'),
    ("prints all twice", 'text=$("$PROGRAM" "$@"; echo "$?"); code=${text##*[!0-9]}; text=${text%"$code"}; printf %s%s "$text" "$text"; exit $code'),
    ("drops the newline at the end of the output", 'text=$("$PROGRAM" "$@"); code=$?; printf %s "$text"; exit $code'),
    ("ends with 0 where output fails", '"$PROGRAM" "$@"; code=$?; [ $code = 4 ] && exit 0; exit $code'),
)

HEAD = """
#define _GNU_SOURCE
#include <dlfcn.h>
#include <errno.h>
#include <fcntl.h>
#include <stdarg.h>
#include <stdio.h>
#include <string.h>
#include <sys/stat.h>
#include <unistd.h>

static ssize_t write_on(int fd, const void *at, size_t size) {
    ssize_t (*next)(int, const void *, size_t) = dlsym(RTLD_NEXT, "write");
    return next(fd, at, size);
}

static ssize_t read_on(int fd, void *at, size_t size) {
    ssize_t (*next)(int, void *, size_t) = dlsym(RTLD_NEXT, "read");
    return next(fd, at, size);
}
"""
WRITE = "ssize_t write(int fd, const void *at, size_t size) { %s }"
READ = "ssize_t read(int fd, void *at, size_t size) { %s }"
OPEN = """
static int open_on(const char *name, int flags, int mode) {
    int (*next)(const char *, int, ...) = dlsym(RTLD_NEXT, "open");
    %s
}
int open(const char *name, int flags, ...) { va_list more; va_start(more, flags); return open_on(name, flags, va_arg(more, int)); }
int open64(const char *name, int flags, ...) { va_list more; va_start(more, flags); return open_on(name, flags, va_arg(more, int)); }
int openat(int at, const char *name, int flags, ...) { va_list more; va_start(more, flags); return open_on(name, flags, va_arg(more, int)); }
"""
LIBRARIES = (
    (NO_FAULT, WRITE % "return write_on(fd, at, size);" + READ % "return read_on(fd, at, size);" + OPEN % "return next(name, flags, mode);"),
    ("takes a failed write for done", WRITE % "ssize_t n = write_on(fd, at, size); return n < 0 && fd != 2 ? (ssize_t) size : n;"),
    ("takes a cut write for done", WRITE % "ssize_t n = write_on(fd, at, size); return n > 0 ? (ssize_t) size : n;"),
    ("takes a failed read for the end", READ % "ssize_t n = read_on(fd, at, size); return n < 0 ? 0 : n;"),
    ("takes a failed read behind the first for the end",
     READ % "static int seen; ssize_t n = read_on(fd, at, size); if (n > 0) seen = 1; return n < 0 && seen ? 0 : n;"),
    ("takes a short read for the end",
     READ % "static int short_one; if (short_one) return 0; ssize_t n = read_on(fd, at, size); short_one = n < (ssize_t) size; return n;"),
    ("writes half of a file", WRITE % "write_on(fd, at, fd > 2 ? size / 2 : size); return size;"),
    ("prints each piece twice", WRITE % "if (fd == 1) write_on(fd, at, size); return write_on(fd, at, size);"),
    ("tells each file that can't be opened as missing", OPEN % "int fd = next(name, flags, mode); if (fd < 0) errno = ENOENT; return fd;"),
    ("tells a missing file as one that can't be read", OPEN % "int fd = next(name, flags, mode); if (fd < 0) errno = EACCES; return fd;"),
    ("writes under another name",
     OPEN % 'char other[512]; snprintf(other, 512, "%s.new", name); return next(flags & O_CREAT ? other : name, flags, mode);'),
    ("leaves the rest of a longer file", OPEN % "return next(name, flags & ~O_TRUNC, mode);"),
)


def script(path, body):
    with open(path, "w") as file:
        file.write(f'#!/usr/bin/env bash\nPROGRAM="{BUILT}"\n{{ exec 3>&1; }} 2>/dev/null\n{body}\n')
    os.chmod(path, 0o755)
    return path


def programs(place):
    """What each does wrong, and its path."""
    for number, (what, body) in enumerate(SCRIPTS):
        yield what, script(os.path.join(place, f"wrong {number}"), body)
    for number, (what, body) in enumerate(LIBRARIES if has("cc") else ()):
        library = os.path.join(place, f"wrong_{number}.so")
        subprocess.run(["cc", "-shared", "-fPIC", "-w", "-x", "c", "-", "-o", library, "-ldl"], input=HEAD + body, text=True, check=True)
        yield what, script(library[:-3], f'LD_PRELOAD="{library}" exec "$PROGRAM" "$@"')
