# Common to the tools that refuse a program's requests for memory; they source this file. `make_refusing FOLDER` leaves `refuse.so` in the
# folder, a small library in front of the C library, which counts and refuses requests (malloc and realloc):
#
#     LD_PRELOAD=FOLDER/refuse.so REFUSED_FROM=3 REFUSED_TO=3 REQUESTS=FILE PROGRAM
#
# refuses the third request, and leaves the number of all of them in FILE. With MARKED=1 a request for 1,000,000 octets and k more, k below 64,
# is a mark: it is granted, and says that those after it are the requests of call k. Then REFUSED_CALL names the call whose requests are
# counted for FROM and TO, and FILE has a line for each call with its number of requests.
#
# With RUNS=FOLDER and SCRIPT=FILE, which is standard input and no pipe, nor is standard output, the program splits at each request of a call, or
# at every so many, as EVERY=`CALL NUMBER CALL NUMBER ..` has them: into one that is refused this request, into one that is refused all from there
# on, and then itself, which is granted it. With JOBS=FILE too it does not split but begins once for each line `CALL FROM TO` of that file, of
# which the last is `0 0 0`: so it has to be where it has threads. Run N leaves N.written and N.said, and in the file `all` a line: N, its status,
# CALL, FROM, TO, and at which octet of what the program itself prints its own begins.
#
# A program of `rt try` has a malloc of its own, that of a checker, and this library is not asked. So, for x86-64 alone, the two functions by
# which such a program asks for memory are replaced as it begins: ALLOC and REALLOC are their places in it, and `find_places PROGRAM` sets them.
make_refusing() { # FOLDER
    cat > "$1/refuse.c" <<'C'
#define _GNU_SOURCE
#include <errno.h>
#include <fcntl.h>
#include <link.h>
#include <stdio.h>
#include <stdlib.h>
#include <string.h>
#include <sys/mman.h>
#include <sys/syscall.h>
#include <sys/wait.h>
#include <unistd.h>

enum { CALLS = 64, FIRST_MARK = 1000000 };

extern void *__libc_malloc(size_t size);
extern void *__libc_realloc(void *old, size_t size);

static unsigned long first, last, counts[CALLS];
static int marked, refused_call, call;

static unsigned long number_of(const char *name, int base) {
    const char *text = getenv(name);
    return text ? strtoul(text, 0, base) : 0;
}

static int refused(size_t size);

/* What a request for memory answers in Rattle: whether it was granted, and the memory. */
struct given {
    long granted;
    void *memory;
};

static struct given given(void *memory) {
    static char nothing[64];
    struct given all = {memory != 0, memory ? memory : nothing};
    return all;
}

static struct given alloc(size_t size, size_t align) {
    size_t asked = size ? size : align;
    return given(refused(asked) ? 0 : malloc(asked));
}

static struct given re_alloc(void *old, size_t kept, size_t size, size_t align) {
    size_t asked = size ? size : align;
    (void)kept;
    return given(refused(asked) ? 0 : realloc(old, asked));
}

/* Has the function at that place of the program jump to this one. */
static void replace(unsigned long base, unsigned long place, void *by) {
    unsigned char jump[14] = {0xff, 0x25};
    unsigned long at = base + place, page = at & ~4095ul;
    if (!place) return;
    memcpy(jump + 6, &by, sizeof by);
    if (mprotect((void *)page, 8192, PROT_READ | PROT_WRITE | PROT_EXEC)) syscall(SYS_exit_group, 98);
    memcpy((void *)at, jump, sizeof jump);
}

static int base_of(struct dl_phdr_info *info, size_t size, void *base) {
    (void)size;
    *(unsigned long *)base = info->dlpi_addr;
    return 1;
}

static void put(int file, const char *text, int size) {
    if (write(file, text, (size_t)size) != size) syscall(SYS_exit_group, 99);
}

static const char *folder, *script;
static unsigned long every[CALLS];
static int splits, run;

/* Opens a file of the folder. */
static int open_of(const char *what, int flags) {
    char name[4096];
    int file;
    snprintf(name, sizeof name, "%s/%s", folder, what);
    file = open(name, O_WRONLY | O_CREAT | flags, 0600);
    if (file < 0) syscall(SYS_exit_group, 97);
    return file;
}

static int open_of_run(const char *what) {
    char name[64];
    snprintf(name, sizeof name, "%d.%s", run, what);
    return open_of(name, O_TRUNC);
}

/* Goes on in another process, which is refused these requests, and once it has ended in this one: answers whether it is the other. */
static int goes_apart(int refused, unsigned long from, unsigned long to) {
    long printed = lseek(1, 0, SEEK_CUR), came = lseek(0, 0, SEEK_CUR);
    int file, status = 0;
    char text[128];
    pid_t made;
    run++;
    made = fork();
    if (made < 0 || printed < 0 || came < 0) syscall(SYS_exit_group, 97);
    if (!made) {
        splits = 0;
        refused_call = refused;
        first = from;
        last = to;
        file = open(script, O_RDONLY);
        if (file < 0 || lseek(file, came, SEEK_SET) < 0 || dup2(file, 0) < 0 || dup2(open_of_run("written"), 1) < 0 || dup2(open_of_run("said"), 2) < 0)
            syscall(SYS_exit_group, 97);
        return 1;
    }
    if (waitpid(made, &status, 0) != made) syscall(SYS_exit_group, 97);
    status = WIFEXITED(status) ? WEXITSTATUS(status) : 128 + WTERMSIG(status);
    file = open_of("all", O_APPEND);
    put(file, text, snprintf(text, sizeof text, "%d %d %d %lu %lu %ld\n", run, status, refused, from, to, printed));
    close(file);
    return 0;
}

/* Returns once for each line of the jobs, each time in another process. */
static void do_jobs(const char *name) {
    static char lines[1 << 20];
    char *at = lines;
    int file = open(name, O_RDONLY);
    if (file < 0 || read(file, lines, sizeof lines - 1) < 0) syscall(SYS_exit_group, 97);
    close(file);
    for (;;) {
        int refused = (int)strtoul(at, &at, 10);
        unsigned long from = strtoul(at, &at, 10), to = strtoul(at, &at, 10);
        if (!from) syscall(SYS_exit_group, 0);
        if (goes_apart(refused, from, to)) return;
    }
}

__attribute__((constructor)) static void begin(void) {
    unsigned long base = 0;
    first = number_of("REFUSED_FROM", 10);
    last = number_of("REFUSED_TO", 10);
    refused_call = (int)number_of("REFUSED_CALL", 10);
    marked = number_of("MARKED", 10) != 0;
    dl_iterate_phdr(base_of, &base);
    replace(base, number_of("ALLOC", 16), (void *)alloc);
    replace(base, number_of("REALLOC", 16), (void *)re_alloc);
    folder = getenv("RUNS");
    script = getenv("SCRIPT");
    char *steps = getenv("EVERY");
    while (steps && *steps) {
        unsigned long one = strtoul(steps, &steps, 10) % CALLS;
        every[one] = strtoul(steps, &steps, 10);
    }
    if (folder && getenv("JOBS")) do_jobs(getenv("JOBS"));
    else splits = folder != 0;
    for (call = CALLS; call--;) counts[call] = 0;
    call = 0;
}

static void tell(void) {
    const char *name = getenv("REQUESTS");
    char text[64];
    int file = name ? open(name, O_WRONLY | O_CREAT | O_TRUNC, 0600) : -1;
    if (file < 0) return;
    if (!marked) put(file, text, snprintf(text, sizeof text, "%lu\n", counts[0]));
    for (int each = 1; marked && each < CALLS; each++)
        if (counts[each]) put(file, text, snprintf(text, sizeof text, "%d %lu\n", each, counts[each]));
    close(file);
}

/* The program ends by this call, and runs no destructors. */
void _exit(int status) {
    tell();
    for (;;) syscall(SYS_exit_group, status);
}

/* Requests come from several threads where a round has several access points. */
static int refused(size_t size) {
    unsigned long number;
    int now;
    if (marked && size >= FIRST_MARK && size < FIRST_MARK + CALLS) {
        __atomic_store_n(&call, (int)(size - FIRST_MARK), __ATOMIC_SEQ_CST);
        return 0;
    }
    now = __atomic_load_n(&call, __ATOMIC_SEQ_CST);
    number = __atomic_add_fetch(&counts[now], 1, __ATOMIC_SEQ_CST);
    if (splits && (now || !marked) && (number - 1) % (every[now] ? every[now] : 1) == 0 && (goes_apart(now, number, number) || goes_apart(now, number, ~0ul))) {
        errno = ENOMEM;
        return 1;
    }
    if (first && now == refused_call && first <= number && number <= last) {
        errno = ENOMEM;
        return 1;
    }
    return 0;
}

void *malloc(size_t size) { return refused(size) ? 0 : __libc_malloc(size); }

void *realloc(void *old, size_t size) { return refused(size) ? 0 : __libc_realloc(old, size); }
C
    cc -shared -fPIC -O1 -o "$1/refuse.so" "$1/refuse.c"
}

find_places() { # PROGRAM
    local names
    names=$(nm "$1" 2> /dev/null || true)
    ALLOC='' REALLOC=''
    if grep -q ' __asan_init$' <<< "$names"; then
        ALLOC=$(awk '$3 == "rattle_alloc" { print $1 }' <<< "$names")
        REALLOC=$(awk '$3 == "rattle_realloc" { print $1 }' <<< "$names")
    fi
    export ALLOC REALLOC
}
