/* Stands in front of the C library, and refuses what it is told to:
 *
 *   REFUSED_ALLOCATION=N   the N-th call that asks for memory, counted from 1, gets none
 *   SHORT_CALLS=           each read and write of a regular file moves at most 3 bytes
 *   FAILED_READ=N          the N-th read of a regular file fails, and moves nothing
 *   INTERRUPTED_READS=N    the first N reads, of whatever file, end as if a signal had come, and move nothing
 *   FAILED_RENAME=N        the N-th rename fails, and renames nothing
 *   FAILED_CLOSE=N         the N-th close of a regular file fails, and closes it all the same, as Linux does
 *
 * The file that REFUSALS names gets a letter for each such call: m, r or w, and R, I, N or C. What was called before
 * this library began, which is the loader's own, is neither counted nor refused.
 *
 * The file that LIVE_BLOCKS names has, as two decimal numbers, how many blocks were taken and not given back when standard
 * output was last written to, and how many bytes they have.
 */
#define _GNU_SOURCE
#include <errno.h>
#include <fcntl.h>
#include <malloc.h>
#include <stdio.h>
#include <stdlib.h>
#include <sys/stat.h>
#include <sys/syscall.h>
#include <unistd.h>

enum { MOST_BYTES = 3 };

/* The names by which glibc lends what is replaced here. */
void *__libc_malloc(size_t size);
void *__libc_calloc(size_t count, size_t size);
void *__libc_realloc(void *block, size_t size);
void *__libc_memalign(size_t alignment, size_t size);
void __libc_free(void *block);
ssize_t __read(int fd, void *into, size_t count);
ssize_t __write(int fd, const void *piece, size_t count);
int __close(int fd);

/* Which of some calls is refused, counted from 1, and how many there were. */
struct nth {
    unsigned long refused;
    unsigned long asked;
};

static const char *told_to;
static const char *live_told_to;
static struct nth allocations, reads, renames, closes;
static int is_short;
static unsigned long interruptions;
static long live, live_bytes;

static unsigned long number_in(const char *name) {
    const char *number = getenv(name);
    return number ? strtoul(number, NULL, 10) : 0;
}

__attribute__((constructor)) static void begin(void) {
    told_to = getenv("REFUSALS");
    live_told_to = getenv("LIVE_BLOCKS");
    is_short = getenv("SHORT_CALLS") != NULL;
    reads.refused = number_in("FAILED_READ");
    interruptions = number_in("INTERRUPTED_READS");
    renames.refused = number_in("FAILED_RENAME");
    closes.refused = number_in("FAILED_CLOSE");
    allocations.refused = number_in("REFUSED_ALLOCATION");
}

static void put_in(const char *name, int flags, const char *text, size_t length) {
    int fd = open(name, O_WRONLY | O_CLOEXEC | flags, 0600);
    if (fd >= 0) {
        __write(fd, text, length);
        __close(fd);
    }
}

static int is_refused(struct nth *calls, char letter, int error) {
    if (calls->refused == 0 || __atomic_add_fetch(&calls->asked, 1, __ATOMIC_RELAXED) != calls->refused)
        return 0;
    put_in(told_to, O_APPEND, &letter, 1);
    errno = error;
    return 1;
}

static void count_block(void *block, long sign) {
    if (block == NULL)
        return;
    __atomic_add_fetch(&live, sign, __ATOMIC_RELAXED);
    __atomic_add_fetch(&live_bytes, sign * (long)malloc_usable_size(block), __ATOMIC_RELAXED);
}

static void *counted(void *block) {
    count_block(block, 1);
    return block;
}

static int no_memory(void) {
    return is_refused(&allocations, 'm', ENOMEM);
}

void *malloc(size_t size) {
    return no_memory() ? NULL : counted(__libc_malloc(size));
}

void *calloc(size_t count, size_t size) {
    return no_memory() ? NULL : counted(__libc_calloc(count, size));
}

void free(void *block) {
    count_block(block, -1);
    __libc_free(block);
}

void *realloc(void *block, size_t size) {
    if (no_memory())
        return NULL;
    count_block(block, -1);
    void *moved = __libc_realloc(block, size);
    /* Without memory the old block stays, unless none was wanted. */
    if (moved == NULL && size != 0)
        count_block(block, 1);
    return counted(moved);
}

void *memalign(size_t alignment, size_t size) {
    return no_memory() ? NULL : counted(__libc_memalign(alignment, size));
}

void *aligned_alloc(size_t alignment, size_t size) {
    return memalign(alignment, size);
}

int posix_memalign(void **block, size_t alignment, size_t size) {
    void *taken = memalign(alignment, size);
    if (taken == NULL)
        return ENOMEM;
    *block = taken;
    return 0;
}

static int is_regular(int fd) {
    struct stat found;
    return fstat(fd, &found) == 0 && S_ISREG(found.st_mode);
}

static size_t shortened(int fd, size_t count, char letter) {
    if (!is_short || count <= MOST_BYTES || !is_regular(fd))
        return count;
    put_in(told_to, O_APPEND, &letter, 1);
    return MOST_BYTES;
}

static int is_interrupted(void) {
    if (interruptions == 0)
        return 0;
    interruptions--;
    put_in(told_to, O_APPEND, "I", 1);
    errno = EINTR;
    return 1;
}

ssize_t read(int fd, void *into, size_t count) {
    if (is_interrupted())
        return -1;
    if (reads.refused != 0 && is_regular(fd) && is_refused(&reads, 'R', EIO))
        return -1;
    return __read(fd, into, shortened(fd, count, 'r'));
}

ssize_t write(int fd, const void *piece, size_t count) {
    if (fd == STDOUT_FILENO && live_told_to != NULL) {
        char text[48];
        int length = snprintf(text, sizeof text, "%ld %ld", __atomic_load_n(&live, __ATOMIC_RELAXED),
                              __atomic_load_n(&live_bytes, __ATOMIC_RELAXED));
        put_in(live_told_to, O_CREAT | O_TRUNC, text, (size_t)length);
    }
    return __write(fd, piece, shortened(fd, count, 'w'));
}

int renameat2(int from_folder, const char *from, int to_folder, const char *to, unsigned flags) {
    if (is_refused(&renames, 'N', EIO))
        return -1;
    return (int)syscall(SYS_renameat2, from_folder, from, to_folder, to, flags);
}

int renameat(int from_folder, const char *from, int to_folder, const char *to) {
    return renameat2(from_folder, from, to_folder, to, 0);
}

int rename(const char *from, const char *to) {
    return renameat2(AT_FDCWD, from, AT_FDCWD, to, 0);
}

int close(int fd) {
    if (closes.refused != 0 && is_regular(fd) && is_refused(&closes, 'C', EIO)) {
        __close(fd);
        errno = EIO;
        return -1;
    }
    return __close(fd);
}
