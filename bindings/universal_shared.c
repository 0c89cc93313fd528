/* Segments, seats and calls of universal_shared.h, over the proved library. Nothing here is proved.
 *
 * A segment's file has, one after another: a head, which doesn't change once it is made; an entry for each seat; the
 * arena of all that the library took as it opened the object; and for each seat an arena. The library asks for memory
 * by malloc, realloc and free, which are renamed as it is linked to the three functions here. So all its pointers lie
 * in the segment, whose address is the same in each process, and what it does there is what threads of one process
 * would do.
 *
 * A seat of which no owner is known is a handle that universal_small_leave has left: the heir. It is made as the
 * segment is, and never used itself. A claim copies its box into the seat's arena, which is begun anew, and gives that
 * to universal_small_resume. So a claim needs nothing of what the last owner had but the words of the object and the
 * entry, and can be made again where it was cut off. */
#define _GNU_SOURCE
#include "universal_shared.h"
#include <errno.h>
#include <fcntl.h>
#include <limits.h>
#include <linux/magic.h>
#include <pthread.h>
#include <stdatomic.h>
#include <stdbool.h>
#include <stdio.h>
#include <stdlib.h>
#include <string.h>
#include <sys/mman.h>
#include <sys/random.h>
#include <sys/stat.h>
#include <sys/vfs.h>
#include <unistd.h>

/* ---- The library's memory: from the arena of this thread, where a segment is made or a seat claimed. A call has none.
 */

typedef struct arena {
    char *next, *end;
} arena;

static _Thread_local arena *current;

static uint64_t up(uint64_t x, uint64_t to) { return (x + to - 1) / to * to; }

/* A block has its size before it. */
static size_t *size_of(void *block) { return (size_t *)block - 2; }

void *shared_malloc(size_t size) {
    size_t room = current ? (size_t)(current->end - current->next) : 0;
    if (room < 32 || size > room - 32) return NULL;
    size_t *at = (size_t *)current->next;
    current->next += 16 + up(size, 16);
    *at = size;
    return at + 2;
}

/* An arena is let go as a whole. */
void shared_free(void *block) { (void)block; }

void *shared_realloc(void *block, size_t size) {
    void *at = shared_malloc(size);
    if (at && block) memcpy(at, block, *size_of(block) < size ? *size_of(block) : size);
    return at;
}

/* ---- What a segment has. */

/* Segments have addresses of this range alone, which Linux leaves free. Each begins at a multiple of STEP. */
#define LOW 0x200000000000ull
#define HIGH 0x2f0000000000ull
#define STEP (1ull << 30)
#define PAGE 4096ull

typedef struct head {
    char magic[8];
    uint32_t layout, version;
    uint64_t build; /* a checksum of the library */
    uint64_t length, address, arenas, arena_bytes;
    uint64_t n;
    uint32_t object, capacity;
    uint64_t invocation, reply, state; /* how many words each has */
    uint64_t tables;                   /* a checksum of a machine's, and of a program */
    uint64_t sum;    /* a checksum of all above */
} head;

/* Only the seat's owner writes here. */
typedef struct entry {
    _Alignas(128) void *heir;
    uint64_t was, made, version, asked; /* asked: the number of the last call that was asked for, `made` or one more */
    uint64_t reply[UNIVERSAL_SHARED_ANSWERED];
    uint64_t invocation[2][UNIVERSAL_SHARED_ASKED]; /* of call c at c % 2 */
} entry;

static const char MAGIC[8] = "univseg";
enum { LAYOUT = 3 };

/* What is written comes in this order: who takes the seat over does so after its owner's death, so the compiler alone
 * could change it. */
static void in_order(void) { atomic_signal_fence(memory_order_seq_cst); }

static uint64_t checksum(uint64_t before, const void *bytes, size_t count) {
    for (const unsigned char *c = bytes; count; count--) before = (before ^ *c++) * 1099511628211ull;
    return before;
}
#define CHECKSUM_START 14695981039346656037ull

static uint64_t sum_of(const head *h) { return checksum(CHECKSUM_START, h, offsetof(head, sum)); }

static uint64_t sum_of_tables(const universal_shared_kind *kind) {
    if (kind->object == UNIVERSAL_SHARED_PROGRAM) {
        const uint64_t words[] = {kind->count, kind->words, kind->invocation, kind->answer};
        uint64_t sum = checksum(CHECKSUM_START, words, sizeof words);
        return checksum(checksum(sum, kind->code, kind->count * sizeof *kind->code), kind->start, kind->words * sizeof *kind->start);
    }
    if (kind->object != UNIVERSAL_SHARED_MACHINE) return 0;
    size_t count = (size_t)kind->states * kind->invocations * sizeof(uint32_t);
    uint64_t sum = checksum(CHECKSUM_START, &kind->states, sizeof kind->states);
    return checksum(checksum(sum, kind->next, count), kind->reply, count);
}

static uint32_t capacity_of(const universal_shared_kind *kind) {
    bool has_one = kind->object >= UNIVERSAL_SHARED_COUNTERS && kind->object <= UNIVERSAL_SHARED_MAP;
    return has_one ? kind->capacity : 0;
}

static entry *entry_of(const head *h, uint64_t process) { return (entry *)((char *)h + up(sizeof *h, 128)) + process; }

typedef struct widths {
    uint64_t invocation, reply, state;
} widths;

static bool widths_of(const universal_shared_kind *kind, widths *w) {
    uint64_t capacity = kind->capacity;
    switch (kind->object) {
    case UNIVERSAL_SHARED_COUNTER: *w = (widths){1, 1, 1}; return true;
    case UNIVERSAL_SHARED_REGISTER64: *w = (widths){3, 1, 1}; return true;
    case UNIVERSAL_SHARED_COUNTERS: *w = (widths){2, 1, capacity}; return true;
    case UNIVERSAL_SHARED_QUEUE: *w = (widths){1, 1, 2 + capacity}; return true;
    case UNIVERSAL_SHARED_STACK: *w = (widths){1, 1, 1 + capacity}; return true;
    case UNIVERSAL_SHARED_MAP: *w = (widths){3, 2, 1 + 2 * capacity}; return true;
    case UNIVERSAL_SHARED_BOOK: *w = (widths){4, 2, 16}; return true;
    case UNIVERSAL_SHARED_MACHINE: *w = (widths){1, 1, 1}; return true;
    case UNIVERSAL_SHARED_PROGRAM: *w = (widths){kind->invocation, kind->answer, kind->words}; return true;
    default: return false;
    }
}

/* A program whose words an entry has room for. */
static uint32_t open_program(const universal_shared_kind *kind, uint64_t n, universal_handle *object) {
    uint64_t place = 0;
    if (kind->invocation > UNIVERSAL_SHARED_ASKED || kind->answer > UNIVERSAL_SHARED_ANSWERED) return UNIVERSAL_BAD_CAPACITY;
    return universal_open_program(n, (const uint64_t *)kind->code, 5 * kind->count, kind->start, kind->words, kind->invocation,
                                  kind->answer, &place, object);
}

static uint32_t open_object(const universal_shared_kind *kind, uint64_t n, universal_handle *object) {
    size_t entries = (size_t)kind->states * kind->invocations;
    switch (kind->object) {
    case UNIVERSAL_SHARED_COUNTER: return universal_open_counter(n, object);
    case UNIVERSAL_SHARED_REGISTER64: return universal_open_register64(n, object);
    case UNIVERSAL_SHARED_COUNTERS: return universal_open_counters(n, kind->capacity, object);
    case UNIVERSAL_SHARED_QUEUE: return universal_open_queue(n, kind->capacity, object);
    case UNIVERSAL_SHARED_STACK: return universal_open_stack(n, kind->capacity, object);
    case UNIVERSAL_SHARED_MAP: return universal_open_map(n, kind->capacity, object);
    case UNIVERSAL_SHARED_BOOK: return universal_open_book(n, object);
    case UNIVERSAL_SHARED_PROGRAM: return open_program(kind, n, object);
    default:
        return universal_open_small_machine(n, kind->states, kind->invocations, kind->next, entries, kind->reply,
                                            entries, object);
    }
}

/* ---- Making one: in memory of this process alone, at its final address; then it is written to the file. */

/* More than the library can take, where it opens the object; what it doesn't touch costs nothing. */
static uint64_t room_of(const universal_shared_kind *kind, const widths *w, uint64_t n) {
    uint64_t seats = n < 64 ? n : 64, state = w->state < 65536 ? w->state : 65536;
    uint64_t asked = w->invocation < UNIVERSAL_SHARED_ASKED ? w->invocation : UNIVERSAL_SHARED_ASKED;
    uint64_t answered = w->reply < UNIVERSAL_SHARED_ANSWERED ? w->reply : UNIVERSAL_SHARED_ANSWERED;
    uint64_t buffer = seats + seats * answered + state, words = 1 + seats + seats * asked + 2 * seats * buffer;
    uint64_t tables = kind->object == UNIVERSAL_SHARED_MACHINE ? (uint64_t)kind->states * kind->invocations : 0;
    if (kind->object == UNIVERSAL_SHARED_PROGRAM) tables = 4 * (kind->count < 8192 ? kind->count : 8192) + state;
    uint64_t of_seat = 16 * 8 * buffer + 512 * seats + 32768;
    return up(5 * 8 * words + (seats + 1) * of_seat + 32 * (tables < STEP ? tables : 0) + 65536, PAGE);
}

static head *free_address(uint64_t room) {
    uint64_t slots = (HIGH - LOW) / STEP - 64, start = 0;
    if (getrandom(&start, sizeof start, GRND_NONBLOCK) != sizeof start) start = (uint64_t)getpid() * 2654435761u;
    for (uint64_t k = 0; k < slots; k++) {
        void *wanted = (void *)(LOW + (start % slots + k) % slots * STEP);
        int flags = MAP_PRIVATE | MAP_ANONYMOUS | MAP_NORESERVE | MAP_FIXED_NOREPLACE;
        void *at = mmap(wanted, room, PROT_READ | PROT_WRITE, flags, -1, 0);
        if (at == wanted) return at;
        if (at == MAP_FAILED && errno != EEXIST) return NULL;
        if (at != MAP_FAILED) munmap(at, room); /* an old kernel takes the address as a wish */
    }
    errno = EEXIST;
    return NULL;
}

/* The handle of a seat with no owner: the heir's box again, at the start of an arena. */
static uint32_t resumed(const entry *e, arena *room, universal_handle *handle, uint64_t *reply, uint64_t reply_width,
                        uint32_t *ended, uint64_t *version) {
    current = room;
    handle->at = shared_malloc(*size_of(e->heir));
    uint32_t status = UNIVERSAL_MEMORY;
    if (handle->at) {
        memcpy(handle->at, e->heir, *size_of(e->heir));
        status = universal_small_resume(handle, e->made, reply, reply_width, ended, version);
    }
    current = NULL;
    return status;
}

/* The object, and its seats, each left at once. */
static uint32_t with_seats_left(head *h, const universal_shared_kind *kind) {
    universal_handle object = UNIVERSAL_NONE;
    uint32_t status = open_object(kind, h->n, &object);
    for (uint64_t k = 0; k < h->n && status == UNIVERSAL_DONE; k++) {
        universal_handle seat = UNIVERSAL_NONE;
        uint64_t process = 0;
        status = universal_small_seat(&object, &seat, &process);
        if (status == UNIVERSAL_DONE) status = universal_small_leave(&seat);
        if (status == UNIVERSAL_DONE) entry_of(h, process)->heir = seat.at;
    }
    if (status == UNIVERSAL_DONE) universal_drop(&object);
    return status;
}

/* A segment in memory of this process alone, with room for so many bytes. */
static uint32_t made_alone(const universal_shared_kind *kind, uint64_t n, head **made, uint64_t *room) {
    widths w;
    if (!widths_of(kind, &w)) return UNIVERSAL_SHARED_BAD_KIND;
    *room = room_of(kind, &w, n);
    head *h = free_address(*room);
    if (!h) return errno == EEXIST ? UNIVERSAL_SHARED_ADDRESS : UNIVERSAL_SHARED_SYSTEM;
    arena common = {(char *)entry_of(h, n < 64 ? n : 64), (char *)h + *room};
    h->n = n;
    current = &common;
    uint32_t status = with_seats_left(h, kind);
    current = NULL;
    if (status == UNIVERSAL_DONE) {
        /* a claim for a trial, as of an owner that died at once, tells what a claim takes */
        h->arenas = up((uint64_t)(common.next - (char *)h), PAGE);
        arena trial = {(char *)h + h->arenas, (char *)h + *room};
        universal_handle seat = UNIVERSAL_NONE;
        uint64_t reply[2] = {0}, version = 0;
        uint32_t ended = 0;
        status = resumed(entry_of(h, 0), &trial, &seat, reply, w.reply, &ended, &version);
        h->arena_bytes = up(2 * ((uint64_t)(trial.next - (char *)h) - h->arenas), PAGE);
    }
    if (status != UNIVERSAL_DONE) {
        munmap(h, *room);
        return status;
    }
    h->layout = LAYOUT, h->version = UNIVERSAL_VERSION, h->build = UNIVERSAL_SHARED_BUILD;
    h->length = h->arenas + n * h->arena_bytes, h->address = (uint64_t)h;
    h->object = kind->object, h->capacity = capacity_of(kind), h->tables = sum_of_tables(kind);
    h->invocation = w.invocation, h->reply = w.reply, h->state = w.state;
    memcpy(h->magic, MAGIC, sizeof h->magic);
    h->sum = sum_of(h);
    *made = h;
    return UNIVERSAL_DONE;
}

uint32_t universal_shared_bytes(const universal_shared_kind *kind, uint64_t n, uint64_t *bytes) {
    head *h;
    uint64_t room;
    uint32_t status = made_alone(kind, n, &h, &room);
    if (status != UNIVERSAL_DONE) return status;
    *bytes = h->length;
    munmap(h, room);
    return UNIVERSAL_DONE;
}

/* ---- What this process has of segments and seats. */

struct universal_shared_segment {
    universal_shared_segment *next;
    head *at;
    head told; /* as it was judged: the segment's own is not read again */
    widths width;
    dev_t device;
    ino_t inode;
    int file;
    uint64_t users; /* attachments and seats */
};

struct universal_shared_seat {
    universal_handle handle;
    entry *entry;
    uint64_t process;
    uint64_t generation; /* of the process that claimed it */
    universal_shared_segment *segment;
    int lock; /* an open file whose record lock says that the owner lives; -1 in a forked child */
    universal_shared_seat *next, **place;
};

static pthread_mutex_t mutex = PTHREAD_MUTEX_INITIALIZER;
static pthread_once_t once = PTHREAD_ONCE_INIT;
static universal_shared_segment *segments;
static universal_shared_seat *seats;

/* Which process this is among its forefathers: a forked child has a greater number, and no seat of a smaller one is its
 * own. The page is cleared by the system at a fork, also at one that calls no handler. */
static uint64_t generation;
static uint64_t *page;

/* The child of a fork that called no handler comes to know it here. */
static void notice_fork(void) {
    if (!*page) seats = NULL, *page = ++generation;
}

static void before_fork(void) {
    pthread_mutex_lock(&mutex);
    notice_fork();
}
static void in_parent(void) { pthread_mutex_unlock(&mutex); }
static void in_child(void) {
    for (universal_shared_seat *s = seats; s; s = s->next)
        close(s->lock), s->lock = -1; /* else it would keep them taken */
    seats = NULL;
    *page = ++generation;
    pthread_mutex_unlock(&mutex);
}

static void begin(void) {
    void *at = mmap(NULL, PAGE, PROT_READ | PROT_WRITE, MAP_PRIVATE | MAP_ANONYMOUS, -1, 0);
    if (at == MAP_FAILED) return;
    madvise(at, PAGE, MADV_WIPEONFORK);
    page = at;
    *page = ++generation;
    pthread_atfork(before_fork, in_parent, in_child);
}

static bool has_begun(void) {
    pthread_once(&once, begin);
    if (!page) errno = ENOMEM;
    return page != NULL;
}

static universal_shared_segment *known(const head *told, const struct stat *file) {
    for (universal_shared_segment *s = segments; s; s = s->next)
        if (s->device == file->st_dev && s->inode == file->st_ino && !memcmp(&s->told, told, sizeof *told)) return s;
    return NULL;
}

/* A segment that is mapped, with a file of its own. */
static uint32_t noted(int fd, const struct stat *file, head *at, const head *told, universal_shared_segment **segment) {
    universal_shared_segment *s = calloc(1, sizeof *s);
    if (!s) return UNIVERSAL_MEMORY;
    *s = (universal_shared_segment){
        .next = segments, .at = at, .told = *told, .device = file->st_dev, .inode = file->st_ino, .users = 1};
    s->file = fcntl(fd, F_DUPFD_CLOEXEC, 3);
    if (s->file < 0) {
        free(s);
        return UNIVERSAL_SHARED_SYSTEM;
    }
    s->width = (widths){told->invocation, told->reply, told->state};
    segments = *segment = s;
    return UNIVERSAL_DONE;
}

static void used_less(universal_shared_segment *segment) {
    if (--segment->users) return;
    universal_shared_segment **place = &segments;
    while (*place != segment) place = &(*place)->next;
    *place = segment->next;
    munmap(segment->at, segment->told.length);
    close(segment->file);
    free(segment);
}

static bool is_in_memory(int fd, struct stat *file) {
    struct statfs system;
    return !fstat(fd, file) && S_ISREG(file->st_mode) && !fstatfs(fd, &system) &&
           (system.f_type == TMPFS_MAGIC || system.f_type == RAMFS_MAGIC);
}

static bool is_written(int fd, const void *bytes, uint64_t count, uint64_t at) {
    while (count) {
        ssize_t now = pwrite(fd, bytes, count, (off_t)at);
        if (now < 0 && errno == EINTR) continue;
        if (now <= 0) return false;
        bytes = (const char *)bytes + now, count -= (uint64_t)now, at += (uint64_t)now;
    }
    return true;
}

/* The head is written last: a file whose maker died meanwhile is no segment. */
static bool is_filled(int fd, const head *h) {
    int refused = posix_fallocate(fd, 0, (off_t)h->length); /* so that no later touch of a page fails */
    if (refused) errno = refused;
    return !refused && is_written(fd, h + 1, h->arenas - sizeof *h, sizeof *h) && is_written(fd, h, sizeof *h, 0);
}

static uint32_t create(int fd, const universal_shared_kind *kind, uint64_t n, universal_shared_segment **segment) {
    struct stat file;
    head *h;
    uint64_t room;
    if (!is_in_memory(fd, &file) || file.st_size != 0) return UNIVERSAL_SHARED_NOT_EMPTY;
    uint32_t status = made_alone(kind, n, &h, &room);
    if (status != UNIVERSAL_DONE) return status;
    head told = *h;
    void *at = MAP_FAILED;
    if (is_filled(fd, h)) at = mmap(h, told.length, PROT_READ | PROT_WRITE, MAP_SHARED | MAP_FIXED, fd, 0);
    if (at == MAP_FAILED) status = UNIVERSAL_SHARED_SYSTEM;
    if (status == UNIVERSAL_DONE) status = noted(fd, &file, h, &told, segment);
    int why = errno;
    if (status == UNIVERSAL_DONE) {
        fcntl(fd, F_ADD_SEALS, F_SEAL_SHRINK | F_SEAL_GROW); /* of a memfd that allows it */
        if (room > told.length) munmap((char *)h + told.length, room - told.length);
    } else {
        munmap(h, room > told.length ? room : told.length);
        if (ftruncate(fd, 0)) why = errno;
    }
    errno = why;
    return status;
}

/* Whether a file is a segment of this kind, by its head, which is read once. */
static uint32_t judged(int fd, const universal_shared_kind *kind, uint64_t n, struct stat *file, head *told) {
    if (!is_in_memory(fd, file) || file->st_size < (off_t)sizeof *told) return UNIVERSAL_SHARED_NOT_A_SEGMENT;
    if (pread(fd, told, sizeof *told, 0) != (ssize_t)sizeof *told) return UNIVERSAL_SHARED_SYSTEM;
    if (memcmp(told->magic, MAGIC, sizeof told->magic)) return UNIVERSAL_SHARED_NOT_A_SEGMENT;
    if (told->layout != LAYOUT || told->version != UNIVERSAL_VERSION || told->build != UNIVERSAL_SHARED_BUILD)
        return UNIVERSAL_SHARED_OTHER_LIBRARY;
    bool is_whole = told->sum == sum_of(told) && told->length == (uint64_t)file->st_size && told->address % STEP == 0 &&
                    told->address >= LOW && told->address < HIGH && told->length <= HIGH - told->address;
    if (!is_whole) return UNIVERSAL_SHARED_NOT_A_SEGMENT;
    bool is_same = told->object == kind->object && told->capacity == capacity_of(kind) && told->n == n &&
                   told->tables == sum_of_tables(kind);
    return is_same ? UNIVERSAL_DONE : UNIVERSAL_SHARED_OTHER_OBJECT;
}

static uint32_t attach(int fd, const universal_shared_kind *kind, uint64_t n, universal_shared_segment **segment) {
    struct stat file;
    head told;
    uint32_t status = judged(fd, kind, n, &file, &told);
    if (status != UNIVERSAL_DONE) return status;
    universal_shared_segment *here = known(&told, &file);
    if (here) {
        here->users++;
        *segment = here;
        return UNIVERSAL_DONE;
    }
    void *wanted = (void *)told.address;
    void *at = mmap(wanted, told.length, PROT_READ | PROT_WRITE, MAP_SHARED | MAP_FIXED_NOREPLACE, fd, 0);
    if (at == MAP_FAILED) return errno == EEXIST ? UNIVERSAL_SHARED_ADDRESS : UNIVERSAL_SHARED_SYSTEM;
    status = at == wanted ? noted(fd, &file, at, &told, segment) : UNIVERSAL_SHARED_ADDRESS;
    if (status != UNIVERSAL_DONE) {
        int why = errno;
        munmap(at, told.length);
        errno = why;
    }
    return status;
}

typedef uint32_t making(int fd, const universal_shared_kind *kind, uint64_t n, universal_shared_segment **segment);

static uint32_t alone(making *make, int fd, const universal_shared_kind *kind, uint64_t n,
                      universal_shared_segment **segment) {
    if (!has_begun()) return UNIVERSAL_SHARED_SYSTEM;
    pthread_mutex_lock(&mutex);
    uint32_t status = make(fd, kind, n, segment);
    pthread_mutex_unlock(&mutex);
    return status;
}

uint32_t universal_shared_create(int fd, const universal_shared_kind *kind, uint64_t n,
                                 universal_shared_segment **segment) {
    return alone(create, fd, kind, n, segment);
}

uint32_t universal_shared_attach(int fd, const universal_shared_kind *kind, uint64_t n,
                                 universal_shared_segment **segment) {
    return alone(attach, fd, kind, n, segment);
}

void universal_shared_detach(universal_shared_segment *segment) {
    pthread_mutex_lock(&mutex);
    used_less(segment);
    pthread_mutex_unlock(&mutex);
}

/* ---- Names. */

static bool is_path(const char *name, char path[PATH_MAX]) {
    int length = snprintf(path, PATH_MAX, "%s%s", strchr(name, '/') ? "" : "/dev/shm/universal.", name);
    errno = ENAMETOOLONG;
    return length < PATH_MAX;
}

/* The descriptor in place of a path: as /proc has it. */
static const char *path_of(int fd, char path[64]) {
    snprintf(path, 64, "/proc/self/fd/%d", fd);
    return path;
}

/* Closes a file, and keeps why the call before failed. */
static uint32_t closed(int fd, uint32_t status) {
    int why = errno;
    close(fd);
    errno = why;
    return status;
}

uint32_t universal_shared_create_named(const char *name, const universal_shared_kind *kind, uint64_t n,
                                       universal_shared_segment **segment) {
    char path[PATH_MAX], folder[PATH_MAX], unnamed[64];
    universal_shared_segment *made = NULL;
    int fd;
    if (name) {
        if (!is_path(name, path)) return UNIVERSAL_SHARED_SYSTEM;
        strcpy(folder, path);
        strrchr(folder, '/')[1] = 0;
        if (!access(path, F_OK)) { /* (else known only once it is made) */
            errno = EEXIST;
            return UNIVERSAL_SHARED_SYSTEM;
        }
        fd = open(folder, O_TMPFILE | O_RDWR | O_CLOEXEC, 0600);
    } else {
        fd = memfd_create("universal", MFD_CLOEXEC | MFD_ALLOW_SEALING);
    }
    if (fd < 0) return UNIVERSAL_SHARED_SYSTEM;
    uint32_t status = universal_shared_create(fd, kind, n, &made);
    if (status == UNIVERSAL_DONE && name && linkat(AT_FDCWD, path_of(fd, unnamed), AT_FDCWD, path, AT_SYMLINK_FOLLOW)) {
        int why = errno;
        universal_shared_detach(made);
        errno = why;
        status = UNIVERSAL_SHARED_SYSTEM;
    }
    if (status == UNIVERSAL_DONE) *segment = made;
    return closed(fd, status);
}

uint32_t universal_shared_attach_named(const char *name, const universal_shared_kind *kind, uint64_t n,
                                       universal_shared_segment **segment) {
    char path[PATH_MAX];
    int fd = is_path(name, path) ? open(path, O_RDWR | O_CLOEXEC) : -1;
    return fd < 0 ? UNIVERSAL_SHARED_SYSTEM : closed(fd, universal_shared_attach(fd, kind, n, segment));
}

uint32_t universal_shared_unlink(const char *name) {
    char path[PATH_MAX];
    return is_path(name, path) && !unlink(path) ? UNIVERSAL_DONE : UNIVERSAL_SHARED_SYSTEM;
}

/* ---- Seats. */

/* The owner of a seat has a record lock on one byte of the file, past its end, by an open file of its own. The system
 * lets it go as the owner dies, however it dies, and no process number is compared. It is never waited for. */
static int set_lock(int file, uint64_t process, short type) {
    struct flock byte = {.l_type = type, .l_whence = SEEK_SET, .l_start = (off_t)((1ull << 40) + process), .l_len = 1};
    return fcntl(file, F_OFD_SETLK, &byte);
}

static uint32_t locked(int file, uint64_t process, int *lock) {
    char path[64];
    int own = open(path_of(file, path), O_RDWR | O_CLOEXEC);
    if (own < 0) return UNIVERSAL_SHARED_SYSTEM;
    if (set_lock(own, process, F_WRLCK))
        return closed(own, errno == EAGAIN || errno == EACCES ? UNIVERSAL_SHARED_TAKEN : UNIVERSAL_SHARED_SYSTEM);
    *lock = own;
    return UNIVERSAL_DONE;
}

/* Takes over the seat whose lock this process has. */
static uint32_t taken_over(universal_shared_segment *segment, uint64_t process, universal_shared_seat *seat,
                           universal_shared_last *last) {
    entry *e = entry_of(segment->at, process);
    char *first = (char *)segment->at + segment->told.arenas + process * segment->told.arena_bytes;
    arena room = {first, first + segment->told.arena_bytes};
    uint64_t reply[2] = {0}, version = 0, was = e->was;
    uint32_t ended = 0;
    uint32_t status = resumed(e, &room, &seat->handle, reply, segment->width.reply, &ended, &version);
    if (status != UNIVERSAL_DONE) return status;
    if (ended) {
        memcpy(e->reply, reply, sizeof reply);
        e->version = version;
        in_order();
        e->made++;
    }
    in_order();
    e->was = UNIVERSAL_SHARED_DIED; /* where it isn't released */
    *last = (universal_shared_last){.process = process, .was = was, .made = e->made, .ended = ended};
    last->version = e->version;
    if (e->made) memcpy(last->invocation, e->invocation[e->made % 2], sizeof last->invocation);
    memcpy(last->reply, e->reply, sizeof last->reply);
    last->is_next = e->asked > e->made;
    if (last->is_next) memcpy(last->next, e->invocation[e->asked % 2], sizeof last->next);
    seat->entry = e;
    return UNIVERSAL_DONE;
}

static uint32_t claimed(universal_shared_segment *segment, uint64_t process, universal_shared_seat *seat,
                        universal_shared_last *last) {
    uint32_t status = locked(segment->file, process, &seat->lock);
    if (status != UNIVERSAL_DONE) return status;
    status = taken_over(segment, process, seat, last);
    if (status != UNIVERSAL_DONE) return closed(seat->lock, status);
    seat->process = process, seat->generation = *page, seat->segment = segment;
    seat->next = seats, seat->place = &seats;
    if (seats) seats->place = &seat->next;
    seats = seat;
    segment->users++;
    return UNIVERSAL_DONE;
}

uint32_t universal_shared_claim(universal_shared_segment *segment, int64_t process, universal_shared_seat **seat,
                                universal_shared_last *last) {
    uint64_t n = segment->told.n, first = process < 0 ? 0 : (uint64_t)process;
    uint64_t end = process < 0 || first >= n ? n : first + 1;
    universal_shared_seat *mine = calloc(1, sizeof *mine);
    if (!mine) return UNIVERSAL_MEMORY;
    uint32_t status = UNIVERSAL_SHARED_TAKEN;
    pthread_mutex_lock(&mutex);
    notice_fork();
    for (uint64_t p = first; p < end && status == UNIVERSAL_SHARED_TAKEN; p++) status = claimed(segment, p, mine, last);
    pthread_mutex_unlock(&mutex);
    if (status == UNIVERSAL_DONE) {
        *seat = mine;
        return UNIVERSAL_DONE;
    }
    free(mine);
    return status == UNIVERSAL_SHARED_TAKEN && (process < 0 || first >= n) ? UNIVERSAL_NO_SEAT : status;
}

uint32_t universal_shared_apply(universal_shared_seat *seat, const uint64_t *invocation, size_t invocation_count,
                                uint64_t *reply, size_t reply_count, uint64_t *version) {
    if (seat->generation != *page) return UNIVERSAL_WRONG_HANDLE;
    const widths *w = &seat->segment->width;
    if (invocation_count != w->invocation || reply_count != w->reply) return UNIVERSAL_BAD_WIDTH;
    entry *e = seat->entry;
    uint64_t number = e->made + 1;
    memcpy(e->invocation[number % 2], invocation, invocation_count * sizeof *invocation);
    in_order();
    e->asked = number;
    in_order();
    uint32_t status =
        universal_small_apply_announced(&seat->handle, invocation, invocation_count, reply, reply_count, version);
    if (status != UNIVERSAL_DONE) return status;
    in_order();
    memcpy(e->reply, reply, reply_count * sizeof *reply);
    e->version = *version;
    in_order();
    e->made = number;
    in_order();
    return UNIVERSAL_DONE;
}

uint64_t universal_shared_made(const universal_shared_seat *seat) { return seat->entry->made; }

void universal_shared_release(universal_shared_seat *seat) {
    pthread_mutex_lock(&mutex);
    notice_fork();
    if (seat->generation == *page) {
        seat->entry->was = UNIVERSAL_SHARED_RELEASED;
        in_order();
        /* not by closing alone: a child that is just forked may have it open */
        set_lock(seat->lock, seat->process, F_UNLCK);
        *seat->place = seat->next;
        if (seat->next) seat->next->place = seat->place;
    }
    if (seat->lock >= 0) close(seat->lock);
    used_less(seat->segment);
    pthread_mutex_unlock(&mutex);
    free(seat);
}
