/* Segments that aren't ones, and each refusal: its status, and that it leaves no descriptor and no page.
 *
 *     shared_bad [OTHER]      OTHER is a program with another build of the library, as this one with other flags */
#define _GNU_SOURCE
#include "universal_shared.h"
#include <errno.h>
#include <fcntl.h>
#include <linux/magic.h>
#include <stdbool.h>
#include <stdio.h>
#include <stdlib.h>
#include <string.h>
#include <sys/mman.h>
#include <sys/resource.h>
#include <sys/stat.h>
#include <sys/vfs.h>
#include <sys/wait.h>
#include <unistd.h>

/* What the wrappers of Rust, Python and Java hand in, and read. */
_Static_assert(sizeof(universal_shared_kind) == 80 && sizeof(universal_shared_last) == 128, "as many bytes as there");

enum { HEAD = 112 };

static const universal_shared_kind map = {.object = UNIVERSAL_SHARED_MAP, .capacity = 100};
static universal_shared_segment *segment; /* a map of 100 keys for 8 */
static int file;
static uint64_t length;

static void expect(bool holds, const char *what) {
    if (holds) return;
    fprintf(stderr, "not so: %s\n", what);
    exit(1);
}

static void answers(uint32_t got, uint32_t wanted, const char *what) {
    if (got == wanted) return;
    fprintf(stderr, "%s: %u in place of %u\n", what, got, wanted);
    exit(1);
}

/* How many descriptors there are, and how many mappings where segments lie. */
static void count(unsigned *files, unsigned *maps) {
    *files = *maps = 0;
    for (int fd = 0; fd < 256; fd++) *files += fcntl(fd, F_GETFD) >= 0;
    FILE *all = fopen("/proc/self/maps", "r");
    char line[4096];
    uint64_t at = 0;
    while (all && fgets(line, sizeof line, all)) *maps += sscanf(line, "%lx-", &at) == 1 && at >> 44 == 2;
    if (all) fclose(all);
}

/* What a child answers that has not mapped the segment, so that it could. It also looks that a refusal leaves nothing.
 */
static uint32_t attached(int fd, const universal_shared_kind *kind, uint64_t n) {
    pid_t child = fork();
    if (!child) {
        universal_shared_segment *here = NULL;
        unsigned files, maps, files_then, maps_then;
        universal_shared_detach(segment);
        count(&files, &maps);
        uint32_t status = universal_shared_attach(fd, kind, n, &here);
        if (status == UNIVERSAL_DONE) universal_shared_detach(here);
        count(&files_then, &maps_then);
        _exit(files == files_then && maps == maps_then && (status == UNIVERSAL_DONE) == (here != NULL) ? (int)status
                                                                                                       : 99);
    }
    int how = 0;
    waitpid(child, &how, 0);
    return WIFEXITED(how) ? (uint32_t)WEXITSTATUS(how) : 1000 + (uint32_t)WTERMSIG(how);
}

/* A file in memory with the first bytes of the segment. */
static int copy(uint64_t bytes) {
    int to = memfd_create("copy", 0);
    void *all = malloc(length);
    expect(all && pread(file, all, length, 0) == (ssize_t)length && write(to, all, bytes) == (ssize_t)bytes,
           "the file is copied");
    free(all);
    return to;
}

/* A file in this folder, or none where that is in memory. */
static int on_a_disk(void) {
    struct statfs system;
    bool is_disk = !statfs(".", &system) && system.f_type != TMPFS_MAGIC && system.f_type != RAMFS_MAGIC;
    return is_disk ? open(".", O_TMPFILE | O_RDWR, 0600) : -1;
}

static void files_that_are_none(void) {
    int none = memfd_create("none", 0), ends[2], disk = on_a_disk(), longer = copy(length);
    answers(attached(none, &map, 8), UNIVERSAL_SHARED_NOT_A_SEGMENT, "an empty file");
    expect(!ftruncate(none, (off_t)length), "a longer file");
    answers(attached(none, &map, 8), UNIVERSAL_SHARED_NOT_A_SEGMENT, "a file of zeros");
    answers(attached(copy(HEAD), &map, 8), UNIVERSAL_SHARED_NOT_A_SEGMENT, "a head alone");
    answers(attached(copy(HEAD - 1), &map, 8), UNIVERSAL_SHARED_NOT_A_SEGMENT, "less than a head");
    answers(attached(copy(length - 4096), &map, 8), UNIVERSAL_SHARED_NOT_A_SEGMENT, "a page too few");
    expect(!ftruncate(longer, (off_t)length + 4096), "a longer copy");
    answers(attached(longer, &map, 8), UNIVERSAL_SHARED_NOT_A_SEGMENT, "a page too many");
    answers(attached(open("/dev/zero", O_RDWR), &map, 8), UNIVERSAL_SHARED_NOT_A_SEGMENT, "a device");
    expect(!pipe(ends), "a pipe");
    answers(attached(ends[0], &map, 8), UNIVERSAL_SHARED_NOT_A_SEGMENT, "a pipe");
    answers(attached(open("/dev/shm", O_RDONLY), &map, 8), UNIVERSAL_SHARED_NOT_A_SEGMENT, "a folder");
    answers(attached(-1, &map, 8), UNIVERSAL_SHARED_NOT_A_SEGMENT, "no file");
    answers(attached(copy(length), &map, 8), UNIVERSAL_DONE, "a whole copy");
    if (disk >= 0) {
        char *all = malloc(length);
        expect(all && pread(file, all, length, 0) == (ssize_t)length && write(disk, all, length) == (ssize_t)length,
               "a file on a disk");
        free(all);
        answers(attached(disk, &map, 8), UNIVERSAL_SHARED_NOT_A_SEGMENT, "a file on a disk");
    }
    char path[64];
    snprintf(path, sizeof path, "/proc/self/fd/%d", file);
    answers(attached(open(path, O_RDONLY), &map, 8), UNIVERSAL_SHARED_SYSTEM, "a file that can't be written");
}

static void other_objects(void) {
    const universal_shared_kind queue = {.object = UNIVERSAL_SHARED_QUEUE, .capacity = 100};
    const universal_shared_kind wider = {.object = UNIVERSAL_SHARED_MAP, .capacity = 101};
    answers(attached(file, &map, 8), UNIVERSAL_DONE, "the segment");
    answers(attached(file, &queue, 8), UNIVERSAL_SHARED_OTHER_OBJECT, "another kind");
    answers(attached(file, &wider, 8), UNIVERSAL_SHARED_OTHER_OBJECT, "another capacity");
    answers(attached(file, &map, 9), UNIVERSAL_SHARED_OTHER_OBJECT, "another n");
    answers(attached(file, &(universal_shared_kind){.object = 99}, 8), UNIVERSAL_SHARED_OTHER_OBJECT,
            "a kind that is none");
    /* machines of the same size: a switch, and one that stays */
    const uint32_t turn[] = {1, 0}, stay[] = {0, 1}, told[] = {0, 1};
    universal_shared_kind machine = {.object = UNIVERSAL_SHARED_MACHINE, .states = 2, .invocations = 1, .next = turn, .reply = told}, other = machine;
    other.next = stay;
    universal_shared_segment *mine = NULL;
    int at = memfd_create("machine", 0);
    answers(universal_shared_create(at, &machine, 1, &mine), UNIVERSAL_DONE, "a machine");
    universal_shared_detach(mine);
    answers(attached(at, &machine, 1), UNIVERSAL_DONE, "the machine again");
    answers(attached(at, &other, 1), UNIVERSAL_SHARED_OTHER_OBJECT, "a machine of other tables");
    close(at);
}

/* Each bit of the head is flipped: it is refused. And one behind it, of a word that each claim writes, isn't looked at.
 */
static void flipped_bits(void) {
    unsigned other = 0, none = 0;
    int flipped = copy(length);
    for (off_t at = 0; at < HEAD; at++)
        for (int bit = 0; bit < 8; bit++) {
            unsigned char was = 0, is = 0;
            expect(pread(flipped, &was, 1, at) == 1, "a byte");
            is = was ^ (unsigned char)(1 << bit);
            expect(pwrite(flipped, &is, 1, at) == 1, "another byte");
            uint32_t status = attached(flipped, &map, 8);
            other += status == UNIVERSAL_SHARED_OTHER_LIBRARY, none += status == UNIVERSAL_SHARED_NOT_A_SEGMENT;
            expect(pwrite(flipped, &was, 1, at) == 1, "the byte again");
        }
    expect(other == 128, "layout, version and build have 128 bits");
    expect(none == 8 * HEAD - 128, "each other bit of the head tells that the file is no segment");
    answers(attached(flipped, &map, 8), UNIVERSAL_DONE, "as it was");
    close(flipped);
}

static void addresses(void) {
    universal_shared_segment *again = NULL, *other = NULL;
    answers(universal_shared_attach(file, &map, 8, &again), UNIVERSAL_DONE, "a second time");
    expect(again == segment, "it is mapped once");
    universal_shared_detach(again);
    answers(universal_shared_attach(copy(length), &map, 8, &other), UNIVERSAL_SHARED_ADDRESS,
            "a copy, whose address is the segment's");
    expect(!other, "nothing is attached");
}

static void makings(void) {
    unsigned files, maps, files_then, maps_then;
    universal_shared_segment *none = NULL;
    uint64_t bytes = 7;
    int empty = memfd_create("empty", 0), disk = on_a_disk();
    const universal_shared_kind wide = {.object = UNIVERSAL_SHARED_QUEUE, .capacity = 65536}, strange = {.object = 10};
    const uint32_t table[] = {2};
    const universal_shared_kind machine = {.object = UNIVERSAL_SHARED_MACHINE, .states = 1, .invocations = 1, .next = table, .reply = table};
    count(&files, &maps);
    answers(universal_shared_create(file, &map, 8, &none), UNIVERSAL_SHARED_NOT_EMPTY, "in a segment that is one");
    answers(universal_shared_create(-1, &map, 8, &none), UNIVERSAL_SHARED_NOT_EMPTY, "in no file");
    answers(universal_shared_create(empty, &strange, 8, &none), UNIVERSAL_SHARED_BAD_KIND, "of no kind");
    answers(universal_shared_create(empty, &map, 0, &none), UNIVERSAL_BAD_COUNT, "for nobody");
    answers(universal_shared_create(empty, &map, 65, &none), UNIVERSAL_BAD_COUNT, "for 65");
    answers(universal_shared_create(empty, &map, UINT64_MAX, &none), UNIVERSAL_BAD_COUNT, "for all");
    answers(universal_shared_create(empty, &wide, 8, &none), UNIVERSAL_BAD_CAPACITY, "too wide");
    answers(universal_shared_create(empty, &machine, 8, &none), UNIVERSAL_BAD_TABLE, "of a table that is none");
    answers(universal_shared_bytes(&map, 65, &bytes), UNIVERSAL_BAD_COUNT, "bytes for 65");
    expect(bytes == 7 && !none, "nothing is told");
    if (disk >= 0) answers(universal_shared_create(disk, &map, 8, &none), UNIVERSAL_SHARED_NOT_EMPTY, "on a disk");
    struct rlimit was, small = {4096, 4096};
    getrlimit(RLIMIT_FSIZE, &was);
    small.rlim_max = was.rlim_max;
    setrlimit(RLIMIT_FSIZE, &small);
    answers(universal_shared_create(empty, &map, 8, &none), UNIVERSAL_SHARED_SYSTEM, "in a file that may not grow");
    expect(errno == EFBIG, "the system says why");
    setrlimit(RLIMIT_FSIZE, &was);
    struct stat it;
    expect(!fstat(empty, &it) && it.st_size == 0 && !none, "the file is empty still");
    count(&files_then, &maps_then);
    expect(files == files_then && maps == maps_then, "no descriptor and no mapping is left");
    answers(universal_shared_create(empty, &map, 8, &none), UNIVERSAL_DONE, "in the same file then");
    universal_shared_detach(none);
    count(&files_then, &maps_then);
    expect(files == files_then && maps == maps_then, "nor of one that was made and detached");
    close(empty), close(disk);
}

static void names(void) {
    char name[64], path[128];
    universal_shared_segment *named = NULL, *again = NULL;
    snprintf(name, sizeof name, "test.%d", (int)getpid()), snprintf(path, sizeof path, "/dev/shm/universal.%s", name);
    answers(universal_shared_attach_named(name, &map, 8, &named), UNIVERSAL_SHARED_SYSTEM, "a name of nothing");
    expect(errno == ENOENT, "there is none");
    answers(universal_shared_create_named(name, &map, 8, &named), UNIVERSAL_DONE, "a name");
    struct stat it;
    expect(!stat(path, &it) && (it.st_mode & 0777) == 0600 && (uint64_t)it.st_size == length,
           "it is its owner's alone, and whole");
    answers(universal_shared_create_named(name, &map, 8, &again), UNIVERSAL_SHARED_SYSTEM, "a name that is taken");
    expect(errno == EEXIST && !again, "it is there");
    answers(universal_shared_attach_named(path, &map, 8, &again), UNIVERSAL_DONE, "a path");
    expect(again == named, "it is the same one");
    answers(universal_shared_unlink(name), UNIVERSAL_DONE, "the name is taken away");
    answers(universal_shared_unlink(name), UNIVERSAL_SHARED_SYSTEM, "and is no more");
    universal_shared_detach(again), universal_shared_detach(named);
    char wide[5000];
    memset(wide, 'x', sizeof wide), wide[sizeof wide - 1] = 0;
    answers(universal_shared_create_named(wide, &map, 8, &named), UNIVERSAL_SHARED_SYSTEM, "too long a name");
    expect(errno == ENAMETOOLONG, "it is too long");
}

static void seats(void) {
    universal_shared_seat *seat[9] = {NULL};
    universal_shared_last last;
    unsigned files, maps, files_then, maps_then;
    uint64_t reply[2] = {5, 6}, version = 7;
    count(&files, &maps);
    for (int p = 0; p < 8; p++) {
        answers(universal_shared_claim(segment, -1, &seat[p], &last), UNIVERSAL_DONE, "a claim");
        expect(last.process == (uint64_t)p && last.made == 0 && last.was == UNIVERSAL_SHARED_NEW && !last.ended &&
                   !last.is_next,
               "a new seat");
    }
    answers(universal_shared_claim(segment, -1, &seat[8], &last), UNIVERSAL_NO_SEAT, "a ninth claim");
    answers(universal_shared_claim(segment, 3, &seat[8], &last), UNIVERSAL_SHARED_TAKEN, "a seat that is taken");
    answers(universal_shared_claim(segment, 8, &seat[8], &last), UNIVERSAL_NO_SEAT, "a seat that is none");
    answers(universal_shared_claim(segment, INT64_MAX, &seat[8], &last), UNIVERSAL_NO_SEAT, "a number that is none");
    expect(!seat[8] && last.process == 7, "nothing is told");
    answers(universal_shared_apply(seat[0], (uint64_t[])UNIVERSAL_MAP_GET(1), 2, reply, 2, &version),
            UNIVERSAL_BAD_WIDTH, "two words");
    answers(universal_shared_apply(seat[0], (uint64_t[])UNIVERSAL_MAP_GET(1), 3, reply, 1, &version),
            UNIVERSAL_BAD_WIDTH, "one of a reply");
    expect(reply[0] == 5 && reply[1] == 6 && version == 7 && universal_shared_made(seat[0]) == 0, "no call was made");
    /* no word of a segment that is in use points out of it */
    for (uint64_t i = 0; i < 1000; i++)
        answers(universal_shared_apply(seat[i % 8], (uint64_t[])UNIVERSAL_MAP_INSERT(i % 90, i), 3, reply, 2, &version),
                UNIVERSAL_DONE, "a call");
    expect(universal_shared_made(seat[0]) == 125, "each has made its calls");
    universal_shared_detach(segment);
    answers(universal_shared_apply(seat[0], (uint64_t[])UNIVERSAL_MAP_GET(1), 3, reply, 2, &version), UNIVERSAL_DONE,
            "a call once it is detached");
    expect(reply[0] == UNIVERSAL_MAP_VALUE && reply[1] == 991, "the value is there");
    answers(universal_shared_attach(file, &map, 8, &segment), UNIVERSAL_DONE, "it is attached again");
    for (int p = 0; p < 8; p++) universal_shared_release(seat[p]);
    count(&files_then, &maps_then);
    expect(files == files_then && maps == maps_then, "no descriptor and no mapping is left of seats");
}

/* Of the words of a segment, those that look like an address of this process lie in the segment. (The address sanitizer
 * has mappings where numbers are, too.) */
static void no_pointer_leaves(void) {
    static struct { uintptr_t from, to; } map[1024];
    int maps = 0, in = 0;
    uint64_t *words = malloc(length), address = 0;
    expect(words && pread(file, words, length, 0) == (ssize_t)length, "the words");
    address = words[4];
    FILE *all = fopen("/proc/self/maps", "r");
    char line[4096];
    while (all && maps < 1024 && fgets(line, sizeof line, all))
        maps += sscanf(line, "%lx-%lx", &map[maps].from, &map[maps].to) == 2 && map[maps].from != address;
    if (all) fclose(all);
    expect(maps > 8, "the process has memory");
#ifdef __SANITIZE_ADDRESS__
    maps = 0;
#endif
    for (uint64_t k = 0; k < length / 8; k++) {
        in += words[k] >= address && words[k] < address + length;
        for (int m = 0; m < maps; m++)
            expect(words[k] < map[m].from || words[k] >= map[m].to, "no word points out of the segment");
    }
    expect(in > 16, "words point into it");
    free(words);
}

/* Each kind, for 1, 8 and 64, can be made and claimed; a segment has as many bytes as was told. */
static void sizes(void) {
    const uint32_t table[] = {0};
    const universal_shared_kind kinds[] = {{.object = UNIVERSAL_SHARED_COUNTER},
                                           {.object = UNIVERSAL_SHARED_REGISTER64},
                                           {.object = UNIVERSAL_SHARED_COUNTERS, .capacity = 0},
                                           {.object = UNIVERSAL_SHARED_COUNTERS, .capacity = 1000},
                                           {.object = UNIVERSAL_SHARED_QUEUE},
                                           {.object = UNIVERSAL_SHARED_STACK, .capacity = 65535},
                                           {.object = UNIVERSAL_SHARED_MAP, .capacity = 32767},
                                           {.object = UNIVERSAL_SHARED_BOOK},
                                           {.object = UNIVERSAL_SHARED_MACHINE, .states = 1, .invocations = 1, .next = table, .reply = table}};
    for (size_t k = 0; k < sizeof kinds / sizeof *kinds; k++)
        for (uint64_t n = 1; n <= 64; n *= 8) {
            universal_shared_segment *made = NULL;
            universal_shared_seat *seat = NULL;
            universal_shared_last last;
            uint64_t bytes = 0;
            struct stat it;
            int at = memfd_create("sizes", 0);
            answers(universal_shared_bytes(&kinds[k], n, &bytes), UNIVERSAL_DONE, "bytes");
            answers(universal_shared_create(at, &kinds[k], n, &made), UNIVERSAL_DONE, "a segment");
            expect(!fstat(at, &it) && (uint64_t)it.st_size == bytes, "it has so many bytes");
            for (uint64_t times = 0; times < 3; times++) {
                answers(universal_shared_claim(made, (int64_t)n - 1, &seat, &last), UNIVERSAL_DONE, "a claim");
                universal_shared_release(seat);
            }
            universal_shared_detach(made);
            close(at);
        }
}

static void another_build(const char *other) {
    char fd[16];
    snprintf(fd, sizeof fd, "%d", file);
    pid_t child = fork();
    if (!child) {
        execl(other, other, "attach", fd, NULL);
        _exit(98);
    }
    int how = 0;
    waitpid(child, &how, 0);
    answers(WIFEXITED(how) ? (uint32_t)WEXITSTATUS(how) : 1000, UNIVERSAL_SHARED_OTHER_LIBRARY,
            "a program with another build of the library");
}

int main(int argc, char **argv) {
    if (argc == 3 && !strcmp(argv[1], "attach")) return (int)universal_shared_attach(atoi(argv[2]), &map, 8, &segment);
    signal(SIGXFSZ, SIG_IGN);
    file = memfd_create("segment", MFD_ALLOW_SEALING);
    answers(universal_shared_create(file, &map, 8, &segment), UNIVERSAL_DONE, "a map of 100 keys for 8");
    answers(universal_shared_bytes(&map, 8, &length), UNIVERSAL_DONE, "its bytes");
    expect(ftruncate(file, 4096) && errno == EPERM, "a sealed segment can't be made shorter");
    files_that_are_none(), other_objects(), flipped_bits(), addresses(), makings(), names(), seats(),
        no_pointer_leaves(), sizes();
    if (argc == 2) another_build(argv[1]);
    return 0;
}
