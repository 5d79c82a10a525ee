// Refuses memory, reads and writes to the program that it is preloaded into (LD_PRELOAD), by the
// environment. It is a part of the tests alone.
//
//   REFUSE_EACH=FD   each growth of memory, in a copy of the process that is made for it and goes
//                    on to its end. What that gave is told to this descriptor: "STATUS OUT ERR\n",
//                    with the numbers of bytes of its two outputs, and these. The process itself
//                    goes on with each growth granted. Its standard streams have to be files
//   REFUSE_READ=N    the Nth read, of whatever descriptor
//   REFUSE_WRITE=N   the Nth write to standard output
//   REFUSE_BYTES=K   that read or write and those behind it take K bytes in all before one fails
//   REFUSE_NOTHING=1 the read or write that fails answers 0, as if it took nothing, in place of EIO
//   REFUSE_ONWARD=1  all later ones too
//   REFUSE_PIECE=K   no read or write takes more than K bytes
//   REFUSE_LOG=FD    each refused read or write writes one byte to this descriptor
#define _GNU_SOURCE
#include <errno.h>
#include <stdio.h>
#include <stdlib.h>
#include <sys/mman.h>
#include <sys/stat.h>
#include <sys/syscall.h>
#include <sys/wait.h>
#include <unistd.h>

void *__libc_malloc(size_t size);
void *__libc_calloc(size_t count, size_t size);
void *__libc_realloc(void *old, size_t size);
void *__libc_memalign(size_t align, size_t size);

struct refused { long from, met, bytes; };
static struct refused reads, writes;
static long nothing, onward, piece;
static int log_to = -1, each_to = -1, refuses_all;

enum { DESCRIPTORS = 32, MOST_SECONDS = 600, PIECE = 65536, LINE = 64 };

static long number(const char *name, long otherwise) {
    const char *text = getenv(name);
    return text ? atol(text) : otherwise;
}

__attribute__((constructor)) static void begin(void) {
    long bytes = number("REFUSE_BYTES", 0);
    reads = (struct refused){number("REFUSE_READ", 0), 0, bytes};
    writes = (struct refused){number("REFUSE_WRITE", 0), 0, bytes};
    nothing = number("REFUSE_NOTHING", 0);
    onward = number("REFUSE_ONWARD", 0);
    piece = number("REFUSE_PIECE", 0);
    log_to = number("REFUSE_LOG", -1);
    each_to = number("REFUSE_EACH", -1);
}

// Whether this call is refused, of a kind of which none is where `from` is 0.
static int is_refused(struct refused *kind) {
    long met = ++kind->met;
    if (kind->from == 0 || met < kind->from || (met > kind->from && !onward)) return 0;
    if (log_to >= 0) syscall(SYS_write, log_to, "r", 1);
    return 1;
}

// Writes all that a file has to another one, whose place alone moves.
static void copy(int from, int to) {
    char bytes[PIECE];
    off_t at = 0;
    for (ssize_t n; (n = pread(from, bytes, PIECE, at)) > 0; at += n)
        syscall(SYS_write, to, bytes, n);
}

static long size_of(int fd) {
    struct stat known;
    return fstat(fd, &known) ? 0 : known.st_size;
}

// A file in memory that begins with what an output has so far.
static int begun(int output) {
    int made = memfd_create("output", 0);
    copy(output, made);
    return made;
}

// In a copy of the process: its outputs are its own from now on, and this growth is refused to it.
static void refuse(int out, int err) {
    dup2(out, STDOUT_FILENO);
    dup2(err, STDERR_FILENO);
    close(out);
    close(err);
    close(each_to);
    each_to = -1;
    refuses_all = onward;
    alarm(MOST_SECONDS);
}

static void tell(int status, int out, int err) {
    char line[LINE];
    int ended = WIFSIGNALED(status) ? -WTERMSIG(status) : WEXITSTATUS(status);
    int n = snprintf(line, LINE, "%d %ld %ld\n", ended, size_of(out), size_of(err));
    syscall(SYS_write, each_to, line, n);
    copy(out, each_to);
    copy(err, each_to);
}

// Whether this is a copy of the process, to which the growth is refused. The process itself waits
// for the copy, and then goes on where it was, in its files too.
static int is_copy(void) {
    off_t places[DESCRIPTORS];
    int out = begun(STDOUT_FILENO), err = begun(STDERR_FILENO), status = 0;
    for (int fd = 0; fd < DESCRIPTORS; fd++) places[fd] = lseek(fd, 0, SEEK_CUR);
    pid_t made = fork();
    if (made == 0) {
        refuse(out, err);
        return 1;
    }
    waitpid(made, &status, 0);
    for (int fd = 0; fd < DESCRIPTORS; fd++) if (places[fd] >= 0) lseek(fd, places[fd], SEEK_SET);
    tell(status, out, err);
    close(out);
    close(err);
    return 0;
}

static int no_memory(void) {
    int refused = refuses_all || (each_to >= 0 && is_copy());
    if (refused) errno = ENOMEM;
    return refused;
}

void *malloc(size_t n) { return no_memory() ? NULL : __libc_malloc(n); }
void *calloc(size_t count, size_t n) { return no_memory() ? NULL : __libc_calloc(count, n); }
void *realloc(void *old, size_t n) { return no_memory() ? NULL : __libc_realloc(old, n); }
void *memalign(size_t a, size_t n) { return no_memory() ? NULL : __libc_memalign(a, n); }
void *aligned_alloc(size_t a, size_t n) { return memalign(a, n); }
int posix_memalign(void **to, size_t a, size_t n) { return (*to = memalign(a, n)) ? 0 : ENOMEM; }

// A read or write of n bytes: what is left of the bytes that may still be taken, or a failure.
static ssize_t moved(struct refused *kind, long call, int fd, void *bytes, size_t n) {
    if (piece > 0 && n > (size_t)piece) n = piece;
    int counts = kind->from > 0 && kind->met + 1 >= kind->from && kind->bytes > 0;
    if (counts && n > (size_t)kind->bytes) n = kind->bytes;
    if (!counts && is_refused(kind)) { errno = EIO; return nothing ? 0 : -1; }
    ssize_t done = syscall(call, fd, bytes, n);
    if (counts && done > 0) kind->bytes -= done;
    return done;
}

ssize_t read(int fd, void *bytes, size_t n) { return moved(&reads, SYS_read, fd, bytes, n); }
ssize_t write(int fd, const void *bytes, size_t n) {
    if (fd != STDOUT_FILENO) return syscall(SYS_write, fd, bytes, n);
    return moved(&writes, SYS_write, fd, (void *)bytes, n);
}
