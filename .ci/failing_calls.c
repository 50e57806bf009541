// Preloaded into a program by .ci/failing.py: tells the calls of the C library by which the program reaches the files of
// its folder and its standard output, but those that remove a file, and has one of them fail. The environment says which:
//   FAILING_LOG   a file elsewhere, if any, to which each call adds the name of its kind, with ` fails` behind it where it
//                 fails
//   FAILING_KIND  the kind of the call that fails, by its name below; with another word none does
//   FAILING_CALL  which call of that kind fails, counted from 1
//   FAILING_HOW   the number that errno gets, with `..` behind it where all later calls of the kind fail too;
//                 `short` where at most one byte is moved, with `..` behind it by all later calls of the kind too;
//                 `nothing` where a read finds no bytes; or `killed` where the program ends then and there
//   FAILING_BYTES how many bytes that call still moves at most; where that is more than none, the next one of its kind is
//                 the one that fails
// The folder is the one that the program runs in, and its files are those that are reached by a path without a slash. To
// look is to ask for what stands under such a path, `stat` is to ask the same of a descriptor.
// Nothing is included, so that a compiler with no headers of the C library is enough.

typedef unsigned long size_t;
typedef long ssize_t;

extern int *__errno_location(void);
extern int atoi(const char *text);
extern void *dlsym(void *after, const char *name);
extern char *getenv(const char *name);
extern int raise(int signal);
extern char *strchr(const char *text, int byte);
extern int strcmp(const char *one, const char *other);
extern size_t strlen(const char *text);
extern int strncmp(const char *one, const char *other, size_t count);

enum { WRITE_ONLY = 01, READ_OR_WRITE = 03, CREATE = 0100, APPEND = 02000 };
enum { STANDARD_OUTPUT = 1, DESCRIPTORS = 1024, KILL = 9 };

// The function of this name that the program would reach without this library.
#define REAL(result, name, ...) ((result(*)(__VA_ARGS__))dlsym((void *)-1L, #name))

enum kind {
    STAT, OPEN_TO_READ, SEEK, READ, CLOSE_READ, LOOK, OPEN_TO_WRITE, WRITE, SYNC, RENAME, CLOSE_WRITTEN, OUTPUT, KINDS
};

static const char *const names[KINDS] = {
    "stat",          "open-to-read", "seek", "read",   "close-read",    "look",
    "open-to-write", "write",        "sync", "rename", "close-written", "output"
};

// What each descriptor was opened for.
static enum { ELSEWHERE, TO_READ, TO_WRITE } uses[DESCRIPTORS];

static enum kind failing_kind = KINDS;
static int failing_call, failing_times = 1, told_to = -1, calls[KINDS];
static size_t failing_bytes;
static const char *how = "";

__attribute__((constructor)) static void read_environment(void) {
    const char *log = getenv("FAILING_LOG"), *kind = getenv("FAILING_KIND"), *call = getenv("FAILING_CALL");
    const char *bytes = getenv("FAILING_BYTES");
    if (log) told_to = REAL(int, open, const char *, int, int)(log, WRITE_ONLY | APPEND | CREATE, 0600);
    if (call) failing_call = atoi(call);
    if (getenv("FAILING_HOW")) how = getenv("FAILING_HOW");
    if (bytes) failing_bytes = (size_t)atoi(bytes);
    if (failing_bytes) failing_times = 2;
    for (int i = 0; kind && i < KINDS; i++)
        if (!strcmp(kind, names[i])) failing_kind = i;
}

static void tell(const char *text) {
    if (told_to >= 0) REAL(ssize_t, write, int, const void *, size_t)(told_to, text, strlen(text));
}

// Counts and tells a call, and says whether it fails.
static int fails(enum kind kind) {
    int call = __atomic_add_fetch(&calls[kind], 1, __ATOMIC_SEQ_CST);
    int is_over = call >= failing_call + failing_times && !strchr(how, '.');
    int is_failing = kind == failing_kind && call >= failing_call && !is_over;
    tell(names[kind]);
    tell(is_failing ? " fails\n" : "\n");
    if (is_failing && !strcmp(how, "killed")) raise(KILL);
    return is_failing;
}

static int failed(void) {
    *__errno_location() = atoi(how);
    return -1;
}

// Whether a failing call still moves bytes, of which there may then be fewer.
static int still_moves(size_t *count) {
    int is_short = !strncmp(how, "short", strlen("short"));
    size_t most = is_short ? 1 : failing_bytes;
    if (!is_short) failing_bytes = 0;
    if (most && *count > most) *count = most;
    return most > 0;
}

static int is_of_folder(const char *path) { return path && *path && !strchr(path, '/'); }

static int use_of(int fd) { return fd >= 0 && fd < DESCRIPTORS ? uses[fd] : ELSEWHERE; }

int open(const char *path, int flags, int mode) {
    int writes = (flags & READ_OR_WRITE) != 0, fd;
    if (is_of_folder(path) && fails(writes ? OPEN_TO_WRITE : OPEN_TO_READ)) return failed();
    fd = REAL(int, open, const char *, int, int)(path, flags, mode);
    if (fd >= 0 && fd < DESCRIPTORS) uses[fd] = !is_of_folder(path) ? ELSEWHERE : writes ? TO_WRITE : TO_READ;
    return fd;
}

int close(int fd) {
    int use = use_of(fd), answer;
    if (use) uses[fd] = ELSEWHERE;
    answer = REAL(int, close, int)(fd);
    return use && fails(use == TO_WRITE ? CLOSE_WRITTEN : CLOSE_READ) ? failed() : answer;
}

ssize_t read(int fd, void *bytes, size_t count) {
    if (use_of(fd) && fails(READ)) {
        if (!strcmp(how, "nothing")) return 0;
        if (!still_moves(&count)) return failed();
    }
    return REAL(ssize_t, read, int, void *, size_t)(fd, bytes, count);
}

ssize_t write(int fd, const void *bytes, size_t count) {
    if (((use_of(fd) && fails(WRITE)) || (fd == STANDARD_OUTPUT && fails(OUTPUT))) && !still_moves(&count)) return failed();
    return REAL(ssize_t, write, int, const void *, size_t)(fd, bytes, count);
}

long lseek(int fd, long offset, int whence) {
    return use_of(fd) && fails(SEEK) ? failed() : REAL(long, lseek, int, long, int)(fd, offset, whence);
}

int statx(int folder, const char *path, int flags, unsigned mask, void *data) {
    int is_by_path = is_of_folder(path);
    if ((is_by_path || use_of(folder)) && fails(is_by_path ? LOOK : STAT)) return failed();
    return REAL(int, statx, int, const char *, int, unsigned, void *)(folder, path, flags, mask, data);
}

int rename(const char *from, const char *to) {
    return fails(RENAME) ? failed() : REAL(int, rename, const char *, const char *)(from, to);
}

int fsync(int fd) { return use_of(fd) && fails(SYNC) ? failed() : REAL(int, fsync, int)(fd); }

int fdatasync(int fd) { return use_of(fd) && fails(SYNC) ? failed() : REAL(int, fdatasync, int)(fd); }

// The same functions by their other names.
int open64(const char *path, int flags, int mode) __attribute__((alias("open")));
long lseek64(int fd, long offset, int whence) __attribute__((alias("lseek")));
