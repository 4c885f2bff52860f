// Preloaded into the program by runs.py. It counts what is allocated. It refuses one growth of memory, or all from one
// on; hands over a line at most at each read of a file; and lets reads fail behind so many lines, and writes behind so
// many bytes. A read or a write that is tried again after it failed ends the program with status 99. What it is to do
// stands in the environment:
//
//   REFUSE_AT     the growth that is refused, counted from 1; none where it is missing
//   REFUSE_ALL    whether all growths behind that one are refused too
//   REFUSE_READS  files and numbers, as "a.bed 3 b.bed 1 ": behind so many lines of the file reading fails
//   REFUSE_WRITES a number: behind so many bytes writing fails, but on standard error
//   COUNT_NOTES   where it notes, as the program ends, how many growths there were, and how many bytes were allocated
//                 at once, as "growths 12" and "most 4096" on a line each
//   REFUSE_NOTES  where it notes, once a growth is refused, how many lines of each file were handed over, as "a.bed 3"
//                 and a line feed; the file that was read last comes last, of which the last line may be handed over
//                 in part
#include <errno.h>
#include <fcntl.h>
#include <malloc.h>
#include <stdio.h>
#include <stdlib.h>
#include <string.h>
#include <sys/syscall.h>
#include <unistd.h>

enum { FILES = 64, NAME = 256, TRIED_AGAIN = 99 };

extern void *__libc_malloc(size_t);
extern void *__libc_calloc(size_t, size_t);
extern void *__libc_realloc(void *, size_t);
extern void *__libc_memalign(size_t, size_t);
extern void __libc_free(void *);

// How many lines of each open file were handed over, whether a part of a further one was, and the file's name.
static long lines_of[FILES];
static int is_begun[FILES];
static int has_failed[FILES];
static int last_read = -1;
static char names[FILES][NAME];

// Keeps the name of an open file, without its folder. A file that has another name than before has no lines yet.
static void keep_name(int file) {
    char link[64], room[NAME];
    snprintf(link, sizeof link, "/proc/self/fd/%d", file);
    ssize_t length = readlink(link, room, NAME - 1);
    room[length < 0 ? 0 : length] = 0;
    const char *slash = strrchr(room, '/');
    const char *name = slash ? slash + 1 : room;
    if (strcmp(names[file], name) != 0) {
        strcpy(names[file], name);
        lines_of[file] = is_begun[file] = has_failed[file] = 0;
    }
}

// Notes how far a file was read, if it was.
static void write_note(int notes, int file) {
    char note[NAME + 32];
    if (file >= 0 && lines_of[file] + is_begun[file] > 0) {
        int length = snprintf(note, sizeof note, "%s %ld\n", names[file], lines_of[file] + is_begun[file]);
        syscall(SYS_write, notes, note, (size_t)length);
    }
}

// Notes how far all files were read.
static void write_notes(void) {
    const char *path = getenv("REFUSE_NOTES");
    int notes = path ? open(path, O_WRONLY | O_CREAT | O_TRUNC, 0600) : -1;
    if (notes < 0) {
        return;
    }
    for (int file = 0; file < FILES; file++) {
        if (file != last_read) {
            write_note(notes, file);
        }
    }
    write_note(notes, last_read);
    close(notes);
}

// How many growths there were, how many bytes are allocated, and how many were at once.
static long growths, allocated, most;

// Counts memory that was given, in the place of so many bytes.
static void *counted(void *given, size_t before) {
    if (given) {
        allocated += (long)malloc_usable_size(given) - (long)before;
        most = allocated > most ? allocated : most;
    }
    return given;
}

// Notes what was counted.
__attribute__((destructor)) static void write_counts(void) {
    const char *path = getenv("COUNT_NOTES");
    int notes = path ? open(path, O_WRONLY | O_CREAT | O_TRUNC, 0600) : -1;
    if (notes >= 0) {
        char note[64];
        int length = snprintf(note, sizeof note, "growths %ld\nmost %ld\n", growths, most);
        syscall(SYS_write, notes, note, (size_t)length);
        close(notes);
    }
}

// Whether this growth is refused.
static int is_refused(void) {
    static long at = -1;
    if (at < 0) {
        const char *said = getenv("REFUSE_AT");
        at = said ? atol(said) : 0;
    }
    growths++;
    if (growths == at) {
        write_notes();
    }
    int refused = at > 0 && (growths == at || (growths > at && getenv("REFUSE_ALL")));
    if (refused) {
        errno = ENOMEM;
    }
    return refused;
}

void *malloc(size_t size) {
    return is_refused() ? NULL : counted(__libc_malloc(size), 0);
}

void *calloc(size_t count, size_t size) {
    return is_refused() ? NULL : counted(__libc_calloc(count, size), 0);
}

void *realloc(void *old, size_t size) {
    size_t before = old ? malloc_usable_size(old) : 0;
    return is_refused() ? NULL : counted(__libc_realloc(old, size), before);
}

void *memalign(size_t place, size_t size) {
    return is_refused() ? NULL : counted(__libc_memalign(place, size), 0);
}

void free(void *old) {
    allocated -= old ? (long)malloc_usable_size(old) : 0;
    __libc_free(old);
}

void *aligned_alloc(size_t place, size_t size) {
    return memalign(place, size);
}

int posix_memalign(void **answer, size_t place, size_t size) {
    *answer = memalign(place, size);
    return *answer ? 0 : ENOMEM;
}

// Whether reading a file fails behind so many lines.
static int fails_behind(const char *name, long lines) {
    const char *said = getenv("REFUSE_READS");
    size_t length = strlen(name);
    for (; said && *said; said = strchr(strchr(said, ' ') + 1, ' ') + 1) {
        if (strncmp(said, name, length) == 0 && said[length] == ' ') {
            return lines >= atol(said + length);
        }
    }
    return 0;
}

// A read of a line at most, unless growths alone are counted.
ssize_t read(int file, void *block, size_t size) {
    if (file < 0 || file >= FILES || getenv("COUNT_NOTES")) {
        return syscall(SYS_read, file, block, size);
    }
    keep_name(file);
    last_read = file;
    if (has_failed[file]) {
        _exit(TRIED_AGAIN);
    }
    if (fails_behind(names[file], lines_of[file])) {
        has_failed[file] = 1;
        errno = EIO;
        return -1;
    }
    char *bytes = block;
    size_t taken = 0;
    ssize_t got = 1;
    while (taken < size && got > 0 && (taken == 0 || bytes[taken - 1] != '\n')) {
        got = syscall(SYS_read, file, bytes + taken, 1);
        taken += got > 0;
    }
    // A last line without an end counts as one; so does the end of the file.
    int is_whole = got <= 0 || bytes[taken - 1] == '\n';
    lines_of[file] += is_whole;
    is_begun[file] = !is_whole;
    return taken > 0 ? (ssize_t)taken : got;
}

// A write, of so many bytes as are still to be taken.
ssize_t write(int file, const void *bytes, size_t size) {
    static long left = -1;
    static int write_has_failed;
    const char *said = getenv("REFUSE_WRITES");
    if (!said || file == STDERR_FILENO) {
        return syscall(SYS_write, file, bytes, size);
    }
    if (write_has_failed) {
        _exit(TRIED_AGAIN);
    }
    left = left < 0 ? atol(said) : left;
    if (left == 0 && size > 0) {
        write_has_failed = 1;
        errno = EIO;
        return -1;
    }
    ssize_t taken = syscall(SYS_write, file, bytes, size < (size_t)left ? size : (size_t)left);
    left -= taken > 0 ? taken : 0;
    return taken;
}

ssize_t __write(int file, const void *bytes, size_t size) {
    return write(file, bytes, size);
}
