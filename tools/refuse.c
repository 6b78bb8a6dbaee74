// Fails calls of the C library, so that tools/refuse sees what a program then does. It is loaded before that library.
//
// It reads from the environment:
//
//   REFUSE_COUNTS   a file of six counters of 8 bytes, in which the calls are counted
//   REFUSE_KIND     which calls fail: memory, read, write, sync, cut, output, or none
//   REFUSE_AT       the first call that fails, from 1; of output, how many bytes go out before
//   REFUSE_ON       1 if those after it fail too
//   REFUSE_ERROR    the number of the error
//   REFUSE_LEFT     the path of the database, if REFUSE_AT is 0
//   REFUSE_TELL, REFUSE_HEAR    numbers of open files, if REFUSE_AT is 0
//
// Reads, writes, syncs and cuts are those of files whose names end in ".db", ".db-wal", ".db-part" or "+part". A process
// that runs for more than a minute is killed.
//
// If REFUSE_AT is 0, no call of the process itself fails. At each call of the kind it waits while a child goes on in
// its place, whose call alone fails; then another child, whose calls fail from this one on. When a child has ended, its
// status is written to REFUSE_TELL, and a byte is awaited from REFUSE_HEAR. Then the database, its log and both outputs
// get the bytes that they had before.
#define _GNU_SOURCE
#include <dlfcn.h>
#include <errno.h>
#include <fcntl.h>
#include <limits.h>
#include <stdint.h>
#include <stdio.h>
#include <stdlib.h>
#include <string.h>
#include <sys/mman.h>
#include <sys/stat.h>
#include <sys/syscall.h>
#include <sys/uio.h>
#include <sys/wait.h>
#include <unistd.h>

enum kind { MEMORY, READ, WRITE, SYNC, CUT, OUTPUT, NONE };
static const char *const names[] = {"memory", "read", "write", "sync", "cut", "output"};

static uint64_t *counts;
static enum kind refused = NONE;
static uint64_t at;
static int goes_on;
static int error;
static int is_begun;
static int stands_still, is_child;
static int tell, hear;

// A file that the program may change, and its bytes before; the length is -1 if there was no file.
enum { MOST = 1 << 24 };
struct left {
    char path[PATH_MAX];
    char *bytes;
    ssize_t length;
};
static struct left left[2];

__attribute__((constructor)) static void begin(void) {
    const char *kind = getenv("REFUSE_KIND"), *path = getenv("REFUSE_COUNTS");
    if (!kind || !path) return;
    int file = open(path, O_RDWR);
    if (file < 0) return;
    void *room = mmap(NULL, 6 * sizeof *counts, PROT_READ | PROT_WRITE, MAP_SHARED, file, 0);
    close(file);
    if (room == MAP_FAILED) return;
    counts = room;
    for (int one = 0; one < NONE; one++)
        if (!strcmp(kind, names[one])) refused = one;
    at = strtoull(getenv("REFUSE_AT"), NULL, 10);
    goes_on = *getenv("REFUSE_ON") == '1';
    error = atoi(getenv("REFUSE_ERROR"));
    stands_still = refused != NONE && refused != OUTPUT && at == 0;
    if (stands_still) {
        tell = atoi(getenv("REFUSE_TELL"));
        hear = atoi(getenv("REFUSE_HEAR"));
        for (int one = 0; one < 2; one++) {
            strcpy(left[one].path, getenv("REFUSE_LEFT"));
            if (one) strcat(left[one].path, "-wal");
            left[one].bytes = mmap(NULL, MOST, PROT_READ | PROT_WRITE, MAP_PRIVATE | MAP_ANONYMOUS, -1, 0);
        }
    } else
        alarm(60);
    is_begun = 1;
}

// Saves what a file holds. It calls no function of this library.
static void keep(struct left *file) {
    int from = syscall(SYS_openat, AT_FDCWD, file->path, O_RDONLY);
    file->length = from < 0 ? -1 : 0;
    ssize_t count = 1;
    while (from >= 0 && (count = syscall(SYS_read, from, file->bytes + file->length, MOST - file->length)) > 0)
        file->length += count;
    if (file->length == MOST) abort();
    if (from >= 0) syscall(SYS_close, from);
}

// Gives a file the bytes that it had.
static void put_back(const struct left *file) {
    if (file->length < 0) {
        unlink(file->path);
        return;
    }
    int to = syscall(SYS_openat, AT_FDCWD, file->path, O_WRONLY);
    if (to < 0 || syscall(SYS_ftruncate, to, 0L)) abort();
    if (syscall(SYS_pwrite64, to, file->bytes, file->length, 0L) != file->length) abort();
    syscall(SYS_close, to);
}

// Starts a child, whose call fails, and waits for its end. Returns whether this is the child.
static int goes_on_as_child(uint64_t number, int child_goes_on) {
    uint64_t seen[NONE];
    off_t outputs[3];
    memcpy(seen, counts, sizeof seen);
    for (int one = 1; one < 3; one++) outputs[one] = lseek(one, 0, SEEK_CUR);
    for (int one = 0; one < 2; one++) keep(&left[one]);
    pid_t child = fork();
    if (child == 0) {
        stands_still = 0;
        is_child = 1;
        at = number;
        goes_on = child_goes_on;
        alarm(60);
        return 1;
    }
    int status = 0;
    char text[64], answer;
    if (child < 0 || waitpid(child, &status, 0) != child) abort();
    int length = snprintf(text, sizeof text, "%llu %d %d\n", (unsigned long long)number, child_goes_on, status);
    if (syscall(SYS_write, tell, text, (long)length) != length || syscall(SYS_read, hear, &answer, 1L) != 1) abort();
    for (int one = 0; one < 2; one++) put_back(&left[one]);
    for (int one = 1; one < 3; one++)
        if (syscall(SYS_ftruncate, one, outputs[one]) || lseek(one, outputs[one], SEEK_SET) != outputs[one]) abort();
    memcpy(counts, seen, sizeof seen);
    return 0;
}

// Counts a call, and returns whether it fails.
static int refuses(enum kind kind) {
    if (!is_begun) return 0;
    uint64_t number = __atomic_add_fetch(&counts[kind], 1, __ATOMIC_RELAXED);
    if (kind != refused) return 0;
    if (stands_still) {
        if (!goes_on_as_child(number, 0) && !goes_on_as_child(number, 1)) return 0;
    } else if (!(number == at || (goes_on && number > at)))
        return 0;
    errno = error;
    return 1;
}

static int is_of_database(int file) {
    char link[64], path[PATH_MAX];
    if (!is_begun) return 0;
    char digits[12];
    int place = sizeof digits;
    unsigned rest = file;
    digits[--place] = 0;
    do digits[--place] = '0' + rest % 10; while ((rest /= 10));
    strcpy(link, "/proc/self/fd/");
    strcat(link, digits + place);
    ssize_t length = readlink(link, path, sizeof path - 1);
    if (length < 0) return 0;
    path[length] = 0;
    const char *ends[] = {".db", ".db-wal", ".db-part", "+part"};
    for (int one = 0; one < 4; one++)
        if (length >= (ssize_t)strlen(ends[one]) && !strcmp(path + length - strlen(ends[one]), ends[one])) return 1;
    return 0;
}

#define REAL(name) ((__typeof__(&name))dlsym(RTLD_NEXT, #name))

// `dlsym` may ask for memory before `malloc` is found.
static char early[4096];
static size_t early_used;
static int is_looking;
static int is_early(void *place) { return (char *)place >= early && (char *)place < early + sizeof early; }
static void *from_early(size_t size) {
    size_t begin = (early_used + 15) / 16 * 16;
    if (begin + size > sizeof early) return NULL;
    early_used = begin + size;
    return early + begin;
}

#define FOUND(name) \
    static __typeof__(&name) real; \
    if (!real) { is_looking = 1; real = REAL(name); is_looking = 0; }

void *malloc(size_t size) {
    if (is_looking) return from_early(size);
    FOUND(malloc)
    return refuses(MEMORY) ? NULL : real(size);
}
void *calloc(size_t count, size_t size) {
    if (is_looking) return from_early(count * size);
    FOUND(calloc)
    return refuses(MEMORY) ? NULL : real(count, size);
}
void *realloc(void *place, size_t size) {
    FOUND(realloc)
    return refuses(MEMORY) ? NULL : real(place, size);
}
void *aligned_alloc(size_t align, size_t size) {
    FOUND(aligned_alloc)
    return refuses(MEMORY) ? NULL : real(align, size);
}
int posix_memalign(void **place, size_t align, size_t size) {
    FOUND(posix_memalign)
    return refuses(MEMORY) ? ENOMEM : real(place, align, size);
}
void free(void *place) {
    // to free memory in a child would copy its pages first
    if (is_early(place) || is_child) return;
    FOUND(free)
    real(place);
}

#define OVER(kind, name, answer, declared, ...) \
    answer name declared { \
        FOUND(name) \
        return is_of_database(file) && refuses(kind) ? -1 : real(__VA_ARGS__); \
    }

OVER(READ, pread, ssize_t, (int file, void *into, size_t size, off_t from), file, into, size, from)
OVER(READ, pread64, ssize_t, (int file, void *into, size_t size, off64_t from), file, into, size, from)
OVER(READ, read, ssize_t, (int file, void *into, size_t size), file, into, size)
OVER(WRITE, pwrite, ssize_t, (int file, const void *from, size_t size, off_t to), file, from, size, to)
OVER(WRITE, pwrite64, ssize_t, (int file, const void *from, size_t size, off64_t to), file, from, size, to)
OVER(SYNC, fsync, int, (int file), file)
OVER(SYNC, fdatasync, int, (int file), file)
OVER(CUT, ftruncate, int, (int file, off_t size), file, size)
OVER(CUT, ftruncate64, int, (int file, off64_t size), file, size)

// Standard output takes a number of bytes, and then fails.
ssize_t write(int file, const void *from, size_t size) {
    FOUND(write)
    if (file == 1 && is_begun) {
        uint64_t before = __atomic_fetch_add(&counts[OUTPUT], size, __ATOMIC_RELAXED);
        if (refused == OUTPUT && before + size > at) {
            size_t left = before < at ? at - before : 0;
            if (left) return real(file, from, left);
            errno = error;
            return -1;
        }
        return real(file, from, size);
    }
    return is_of_database(file) && refuses(WRITE) ? -1 : real(file, from, size);
}
