/* For tests/fuzz_inside: stands before the C library in the program, and calls its `main` over and over in one process, each time over changed inputs.

   Nothing of the program stays from a run to the next: it has no state of its own but its words, its memory comes from a region that is begun anew, and the files
   that it opens are in memory, so that a run makes no call of the system. Each block of the program that objdump finds gets a breakpoint, which is gone for
   good once it was met: inputs that meet one are kept, and are changed further. So are inputs that end, or fill outputs, or take memory, or count in their
   line, as none before, and those that take the most time for their size.

   The program's words here are FOLDER SECONDS RUNS SEED. In FOLDER lie `blocks` (offsets, as in fuzz_coverage.c), `names` (of the inputs, one a line; the last is
   `words`, whose text has the command's words, one a line), `statuses` (as ",0,1,4,"), `seeds` and `kept` (sets of inputs, each as its length in four bytes
   and its bytes), `dictionary` and `numbers` (one in hexadecimal digits a line). What is kept is added to `kept`, a set that ends wrongly goes to `finds/KIND-NUMBER` with a
   line in `found`, and `counts` has the counts, in JSON. With RUNS of 0 only the seeds are run, and `cover` gets a line for each that was kept: its number, and how many
   blocks it was the first to enter.

   After each run: whether it ended by itself, with a status of the command's table, with one line, with nothing on standard error, with all outputs or none, and no input
   opened to write. Of some runs also: the same again with other bytes in fresh memory; with one allocation that fails, the outputs then the first of the same; and
   the netlist and the certificate that were written, through `check`. */
#define _GNU_SOURCE
#include <dlfcn.h>
#include <errno.h>
#include <fcntl.h>
#include <link.h>
#include <setjmp.h>
#include <signal.h>
#include <stdarg.h>
#include <stdint.h>
#include <stdio.h>
#include <stdlib.h>
#include <string.h>
#include <sys/mman.h>
#include <sys/syscall.h>
#include <sys/time.h>
#include <time.h>
#include <ucontext.h>
#include <unistd.h>

enum {
    MOST_FILES = 8, MOST_OPEN = 16, FIRST_OPEN = 100, MOST_TEXT = 1 << 16, MOST_KEPT_TEXT = 12000, MOST_SETS = 60000, MOST_OUTPUT = 1 << 20, MOST_LINE = 4096,
    MOST_WORDS = 64, MOST_ENTRIES = 4096, MOST_KINDS = 400, FEATURES = 1 << 16, MOST_FINDS = 150, TICK = 250000, MOST_TICKS = 12, SLOW = 1000000000, CLASSES = 200,
    ROOM = 512 << 20, OUTER = 1 << 30, WARM = 8 << 20
};

typedef struct { unsigned char *at; size_t length; } text_t;
typedef struct { text_t file[MOST_FILES]; long spent; } set_t;
typedef struct { char name[256]; unsigned char *at; size_t length; int made; } output_t;
typedef struct { int status; char line[MOST_LINE]; long bytes, ends, after_line, errors, wrote_input; output_t output[MOST_FILES]; int outputs; long allocations; size_t high; } end_t;

static int (*program)(int, char **, char **);
static int inside;

/* --- memory: two regions, one for the program that is begun anew with each run, one for all else here */

typedef struct { uint32_t magic, kind; size_t size; } head_t;
enum { MAGIC = 0x70646e21 };
static unsigned char *room, *outer;
static size_t room_used, outer_used;
static void *freed[CLASSES];
static long allocations, fail_at;

static void *region(size_t size) {
    void *at = mmap(0, size, PROT_READ | PROT_WRITE, MAP_PRIVATE | MAP_ANONYMOUS | MAP_NORESERVE, -1, 0);
    if (at == MAP_FAILED)
        _exit(96);
    return at;
}

/* The kind of a block of at least this size, and the size of its kind. */
static unsigned kind_of(size_t size, size_t *rounded) {
    if (size <= 1024) {
        *rounded = (size + 15) / 16 * 16;
        return (unsigned)(*rounded / 16);
    }
    unsigned bits = 63 - (unsigned)__builtin_clzl(size - 1);
    size_t part = (size_t)1 << (bits - 2), steps = (size - 1 - ((size_t)1 << bits)) / part + 1;
    *rounded = ((size_t)1 << bits) + steps * part;
    return 65 + (bits - 10) * 4 + (unsigned)steps;
}

static void *taken(unsigned char *base, size_t *used, size_t most, size_t size, unsigned kind) {
    if (size > most || *used + size + sizeof(head_t) > most)
        return 0;
    head_t *head = (head_t *)(base + *used);
    *head = (head_t){MAGIC, kind, size};
    *used += size + sizeof(head_t);
    return head + 1;
}

void *malloc(size_t size) {
    if (!inside) {
        outer = outer ? outer : region(OUTER);
        return taken(outer, &outer_used, OUTER, (size + 15) / 16 * 16, 0);
    }
    if (++allocations == fail_at || size > ROOM) {
        errno = ENOMEM;
        return 0;
    }
    size_t rounded;
    unsigned kind = kind_of(size ? size : 1, &rounded);
    void *at = freed[kind];
    if (at) {
        freed[kind] = *(void **)at;
        return at;
    }
    at = taken(room, &room_used, ROOM, rounded, kind);
    errno = at ? errno : ENOMEM;
    return at;
}

void free(void *at) {
    if (!at || !inside)
        return;
    head_t *head = (head_t *)at - 1;
    if (head->magic != MAGIC)
        abort();
    *(void **)at = freed[head->kind];
    freed[head->kind] = at;
}

void *realloc(void *at, size_t size) {
    if (!at)
        return malloc(size);
    head_t *head = (head_t *)at - 1;
    if (head->magic != MAGIC)
        abort();
    if (inside && ++allocations == fail_at) {
        errno = ENOMEM;
        return 0;
    }
    allocations -= inside;
    if (size <= head->size)
        return at;
    void *to = malloc(size);
    if (to) {
        memcpy(to, at, head->size);
        free(at);
    }
    return to;
}

/* The program calls it not, and all else here has memory that was never used. */
void *calloc(size_t count, size_t size) { return malloc(count * size); }

/* --- the files of a run */

static text_t inputs[MOST_FILES];
static char names[MOST_FILES][64];
static int files;
static end_t ends[2], *now = &ends[0];
static struct { int input, output; size_t at; } opened[MOST_OPEN];

static int place_of(const char *name) {
    for (int file = 0; file + 1 < files; file++)
        if (strcmp(names[file], name) == 0)
            return file;
    return -1;
}

static int output_of(const char *name) {
    for (int file = 0; file < now->outputs; file++)
        if (strcmp(now->output[file].name, name) == 0)
            return file;
    if (now->outputs == MOST_FILES || strlen(name) > 255)
        return -1;
    strcpy(now->output[now->outputs].name, name);
    now->output[now->outputs].length = 0;
    return now->outputs++;
}

int open(const char *name, int flags, ...) {
    if (!inside) {
        va_list more;
        va_start(more, flags);
        int mode = flags & O_CREAT ? va_arg(more, int) : 0;
        va_end(more);
        return (int)syscall(SYS_openat, AT_FDCWD, name, flags, mode);
    }
    int file = 0, input = place_of(name), writes = (flags & O_ACCMODE) != O_RDONLY;
    while (file < MOST_OPEN && (opened[file].input || opened[file].output))
        file++;
    if (file == MOST_OPEN || (!writes && input < 0) || !*name) {
        errno = file == MOST_OPEN ? EMFILE : ENOENT;
        return -1;
    }
    now->wrote_input += writes && input >= 0;
    int output = writes ? output_of(name) : -1;
    if (writes && output < 0) {
        errno = ENOSPC;
        return -1;
    }
    if (flags & O_TRUNC)
        now->output[output].length = 0;
    opened[file].input = writes ? 0 : input + 1;
    opened[file].output = output + 1;
    opened[file].at = 0;
    return FIRST_OPEN + file;
}

static int is_open(int file) {
    return file >= FIRST_OPEN && file < FIRST_OPEN + MOST_OPEN && (opened[file - FIRST_OPEN].input || opened[file - FIRST_OPEN].output);
}

ssize_t read(int file, void *into, size_t length) {
    if (!inside)
        return syscall(SYS_read, file, into, length);
    if (!is_open(file) || !opened[file - FIRST_OPEN].input) {
        errno = EBADF;
        return -1;
    }
    text_t *from = &inputs[opened[file - FIRST_OPEN].input - 1];
    size_t *at = &opened[file - FIRST_OPEN].at, left = *at < from->length ? from->length - *at : 0, moved = length < left ? length : left;
    memcpy(into, from->at + *at, moved);
    *at += moved;
    return (ssize_t)moved;
}

static void line_grows(const char *from, size_t length) {
    for (size_t at = 0; at < length; at++) {
        now->after_line = from[at] != '\n';
        now->ends += from[at] == '\n';
        if (now->bytes < MOST_LINE - 1)
            now->line[now->bytes] = from[at];
        now->bytes++;
    }
}

ssize_t write(int file, const void *from, size_t length) {
    if (!inside)
        return syscall(SYS_write, file, from, length);
    if (file == 1)
        line_grows(from, length);
    else if (file == 2)
        now->errors += (long)length;
    else if (is_open(file) && opened[file - FIRST_OPEN].output) {
        output_t *to = &now->output[opened[file - FIRST_OPEN].output - 1];
        size_t left = to->length < MOST_OUTPUT ? MOST_OUTPUT - to->length : 0;
        memcpy(to->at + to->length, from, length < left ? length : left);
        to->length += length;
    } else {
        errno = EBADF;
        return -1;
    }
    return (ssize_t)length;
}

ssize_t __write(int file, const void *from, size_t length) { return write(file, from, length); }

int close(int file) {
    if (!inside)
        return (int)syscall(SYS_close, file);
    if (!is_open(file)) {
        errno = EBADF;
        return -1;
    }
    opened[file - FIRST_OPEN].input = opened[file - FIRST_OPEN].output = 0;
    return 0;
}

off_t lseek(int file, off_t by, int from) {
    if (!inside)
        return syscall(SYS_lseek, file, by, from);
    if (!is_open(file) || from != SEEK_SET) {
        errno = EINVAL;
        return -1;
    }
    opened[file - FIRST_OPEN].at = (size_t)by;
    return by;
}

void (*__sysv_signal(int number, void (*handler)(int)))(int) {
    (void)number;
    return handler;
}

/* --- breakpoints, and what ends a run */

static unsigned char *code, *first_bytes;
static unsigned *block_at;
static size_t code_size;
static long blocks, met_blocks, new_blocks;
static jmp_buf back;
static volatile int ticks;

static void met(int number, siginfo_t *info, void *context) {
    (void)info;
    greg_t *registers = ((ucontext_t *)context)->uc_mcontext.gregs;
    size_t at = (size_t)registers[REG_RIP] - 1 - (size_t)code;
    if (at >= code_size || !block_at[at]) {
        if (inside)
            longjmp(back, number);
        _exit(95);
    }
    code[at] = first_bytes[at];
    block_at[at] = 0;
    registers[REG_RIP]--;
    new_blocks++;
    met_blocks++;
}

static void fell(int number) {
    if (!inside)
        _exit(94);
    longjmp(back, number);
}

static void ticked(int number) {
    if (inside && ++ticks > MOST_TICKS)
        longjmp(back, number);
}

/* What the program calls before its `main`, which keeps the words. */
static void (**starts)(int, char **, char **);
static size_t many_starts;

static void starts_of(unsigned char *base, const ElfW(Dyn) *entry) {
    for (; entry->d_tag != DT_NULL; entry++) {
        if (entry->d_tag == DT_INIT_ARRAY)
            starts = (void (**)(int, char **, char **))(base + entry->d_un.d_ptr);
        if (entry->d_tag == DT_INIT_ARRAYSZ)
            many_starts = entry->d_un.d_val / sizeof *starts;
    }
}

static int base_of(struct dl_phdr_info *info, size_t length, void *unused) {
    (void)length;
    (void)unused;
    for (int place = 0; place < info->dlpi_phnum; place++)
        if (info->dlpi_phdr[place].p_type == PT_DYNAMIC)
            starts_of((unsigned char *)info->dlpi_addr, (const ElfW(Dyn) *)(info->dlpi_addr + info->dlpi_phdr[place].p_vaddr));
        else if (info->dlpi_phdr[place].p_type == PT_LOAD && info->dlpi_phdr[place].p_flags & PF_X) {
            code = (unsigned char *)info->dlpi_addr;
            code_size = info->dlpi_phdr[place].p_vaddr + info->dlpi_phdr[place].p_memsz;
        }
    return 1; /* the program is the first */
}

static void put_breakpoints(FILE *file) {
    unsigned offset;
    size_t page = (size_t)getpagesize();
    dl_iterate_phdr(base_of, 0);
    first_bytes = calloc(code_size, 1);
    block_at = calloc(code_size, sizeof *block_at);
    if (mprotect(code, (code_size + page - 1) / page * page, PROT_READ | PROT_WRITE | PROT_EXEC))
        _exit(93);
    while (fscanf(file, "%x", &offset) == 1)
        if (offset < code_size && !block_at[offset]) {
            first_bytes[offset] = code[offset];
            code[offset] = 0xcc;
            block_at[offset] = (unsigned)++blocks;
        }
}

static void catch_signals(void) {
    static unsigned char stack[1 << 16];
    stack_t other = {.ss_sp = stack, .ss_size = sizeof stack};
    sigaltstack(&other, 0);
    struct sigaction trap = {.sa_sigaction = met, .sa_flags = SA_SIGINFO | SA_NODEFER | SA_ONSTACK};
    sigaction(SIGTRAP, &trap, 0);
    struct sigaction fall = {.sa_handler = fell, .sa_flags = SA_NODEFER | SA_ONSTACK};
    const int falls[] = {SIGSEGV, SIGBUS, SIGILL, SIGFPE, SIGABRT};
    for (unsigned at = 0; at < sizeof falls / sizeof *falls; at++)
        sigaction(falls[at], &fall, 0);
    struct sigaction tick = {.sa_handler = ticked, .sa_flags = SA_NODEFER | SA_ONSTACK | SA_RESTART};
    sigaction(SIGPROF, &tick, 0);
    struct itimerval every = {{0, TICK}, {0, TICK}};
    setitimer(ITIMER_PROF, &every, 0);
}

/* --- one run */

static char words_text[MOST_TEXT + 1], *words[MOST_WORDS + 2];

/* The words of a text of lines, behind the program's own name. */
static int spread(const text_t *from) {
    int count = 0;
    memcpy(words_text, from->at, from->length);
    words_text[from->length] = 0;
    words[count++] = "pdn";
    for (char *at = words_text, *end = words_text + from->length; at < end && count < MOST_WORDS;) {
        char *line = memchr(at, '\n', (size_t)(end - at));
        words[count++] = at;
        at = line ? line + 1 : end;
        if (line)
            *line = 0;
    }
    words[count] = 0;
    return count;
}

static long nanoseconds(void) {
    struct timespec time;
    clock_gettime(CLOCK_THREAD_CPUTIME_ID, &time);
    return time.tv_sec * 1000000000L + time.tv_nsec;
}

/* Runs over the inputs; how it ended stands in `now`. The nanoseconds that it took. A status below 0 is a signal. */
static long run(void) {
    volatile int count = spread(&inputs[files - 1]);
    now->bytes = now->ends = now->after_line = now->errors = now->wrote_input = now->outputs = 0;
    memset(opened, 0, sizeof opened);
    memset(freed, 0, sizeof freed);
    room_used = 0;
    allocations = ticks = 0;
    long begun = nanoseconds();
    int number = _setjmp(back);
    if (number == 0) {
        inside = 1;
        for (size_t at = 0; at < many_starts; at++)
            starts[at](count, words, environ);
        now->status = program(count, words, environ);
    } else
        now->status = -number;
    inside = 0;
    long took = nanoseconds() - begun;
    now->line[now->bytes < MOST_LINE ? now->bytes : MOST_LINE - 1] = 0;
    now->allocations = allocations;
    now->high = room_used;
    if (room_used > WARM)
        madvise(room + WARM, ROOM - WARM, MADV_DONTNEED);
    return took;
}

/* --- sets of inputs */

static set_t sets[MOST_SETS];
static int many;
static const char *folder;
static uint64_t state = 1;

static uint64_t drawn(void) {
    state ^= state >> 12;
    state ^= state << 25;
    state ^= state >> 27;
    return state * 0x2545F4914F6CDD1DULL;
}

static size_t below(size_t most) { return most ? (size_t)(drawn() % most) : 0; }

static FILE *file_in(const char *name, const char *mode) {
    static char path[4096];
    snprintf(path, sizeof path, "%s/%s", folder, name);
    return fopen(path, mode);
}

static int read_set(FILE *file, text_t *into) {
    for (int at = 0; at < files; at++) {
        uint32_t length;
        if (fread(&length, 4, 1, file) != 1 || length > MOST_TEXT)
            return 0;
        into[at].length = length;
        if (fread(into[at].at, 1, length, file) != length)
            return 0;
    }
    return 1;
}

static void write_set(FILE *file) {
    for (int at = 0; at < files; at++) {
        uint32_t length = (uint32_t)inputs[at].length;
        fwrite(&length, 4, 1, file);
        fwrite(inputs[at].at, 1, length, file);
    }
}

/* The inputs as they are become the set of this number. */
static void keep_at(int number) {
    for (int at = 0; at < files; at++) {
        text_t *to = &sets[number].file[at];
        if (!to->at || to->length < inputs[at].length)
            to->at = malloc(inputs[at].length + 1);
        memcpy(to->at, inputs[at].at, inputs[at].length);
        to->length = inputs[at].length;
    }
    sets[number].spent = 0;
}

/* --- what a run has shown that none before has */

static unsigned char seen[FEATURES];

static int is_new(uint64_t what) {
    what *= 0x9E3779B97F4A7C15ULL;
    unsigned at = (unsigned)(what >> 48);
    int fresh = !seen[at];
    seen[at] = 1;
    return fresh;
}

static unsigned steps_of(uint64_t number) {
    if (number < 8)
        return (unsigned)number;
    unsigned bits = 63 - (unsigned)__builtin_clzl(number);
    return bits * 4 + (unsigned)(number >> (bits - 2) & 3);
}

/* The status and the first two words of the line that begin with a capital; of another line, each of its numbers in steps. Names of nodes may begin so too, so
   that no more than some hundreds of such words count. */
static int line_is_new(void) {
    static int words_seen;
    uint64_t sum = (uint64_t)(now->status + 1000);
    int fresh = 0, place = 0, kinds = 0;
    for (const char *at = now->line; *at; at++) {
        int begins = at == now->line || at[-1] == ' ';
        if (begins && *at >= 'A' && *at <= 'Z' && kinds < 2) {
            kinds++;
            for (; *at && *at != ' ' && *at != '\n'; at++)
                sum = sum * 131 + (unsigned char)*at;
        } else if (begins && *at >= '0' && *at <= '9' && now->status < 2)
            fresh |= is_new(77777 + (uint64_t)++place * 1000 + steps_of(strtoull(at, 0, 10)));
        if (!*at)
            break;
    }
    return fresh | (words_seen < MOST_KINDS && is_new(sum) && ++words_seen);
}

static int is_fresh(void) {
    int fresh = new_blocks > 0;
    new_blocks = 0;
    fresh |= line_is_new();
    for (int at = 0; at < now->outputs; at++)
        fresh |= is_new(99999000 + (uint64_t)at * 1000 + steps_of(now->output[at].length));
    fresh |= is_new(88888000 + steps_of((uint64_t)now->allocations));
    return fresh | is_new(66666000 + steps_of(now->high));
}

/* --- judging */

static char statuses[256];
static int outputs_wanted;
static long runs, runs_of[MOST_FILES], counted[16], status_counts[32], again_runs, failed_runs, checked_runs, most_time, spent;
static text_t usual_words;
static const char *const KINDS[] = {"fell", "hung", "status", "line", "error", "outputs", "input", "want", "slow", "differs", "after_failing", "unchecked", 0};
enum { FELL, HUNG, STATUS, LINE, ERROR, OUTPUTS, INPUT, WANT, SLOW_RUN, DIFFERS, AFTER_FAILING, UNCHECKED };

static void find(int kind, long took) {
    if (counted[kind]++ >= MOST_FINDS)
        return;
    char name[64];
    snprintf(name, sizeof name, "finds/%s-%ld", KINDS[kind], (long)time(0) % 1000000 * 1000 + counted[kind]);
    FILE *file = file_in(name, "wb");
    if (file) {
        write_set(file);
        fclose(file);
    }
    file = file_in("found", "ab");
    if (file) {
        fprintf(file, "%s: status %d, %ld ms, %ld MB, %d outputs: %.200s\n", name, now->status, took / 1000000, (long)(now->high >> 20), now->outputs, now->line);
        fclose(file);
    }
}

static int are_usual(void) {
    return inputs[files - 1].length == usual_words.length && memcmp(inputs[files - 1].at, usual_words.at, usual_words.length) == 0;
}

static int is_listed(int status) {
    char word[32];
    snprintf(word, sizeof word, ",%d,", status);
    return strstr(statuses, word) != 0;
}

static int all_made(void) {
    int wanted = now->status < 2 ? outputs_wanted : 0;
    return now->status == 3 || now->status == 10 || now->outputs == wanted;
}

static void judge(long took) {
    if (now->status < 0) {
        find(now->status == -SIGPROF ? HUNG : FELL, took);
        return;
    }
    int usual = are_usual();
    status_counts[now->status & 31]++;
    if (now->status == 10)
        find(WANT, took);
    else if (usual ? !is_listed(now->status) : now->status > 9 || now->status == 8)
        find(STATUS, took);
    if (now->ends != 1 || now->after_line || (now->status > 1 && strncmp(now->line, "pdn: ", 5) && now->status != 9))
        find(LINE, took);
    if (now->errors)
        find(ERROR, took);
    if (usual && !all_made())
        find(OUTPUTS, took);
    if (usual && now->wrote_input)
        find(INPUT, took);
    if (took > SLOW)
        find(SLOW_RUN, took);
}

static int are_same_outputs(const end_t *one, const end_t *other) {
    if (one->outputs != other->outputs)
        return 0;
    for (int at = 0; at < one->outputs; at++) {
        const output_t *a = &one->output[at], *b = &other->output[at];
        if (a->length != b->length || memcmp(a->at, b->at, a->length < MOST_OUTPUT ? a->length : MOST_OUTPUT))
            return 0;
    }
    return 1;
}

static int is_same(const end_t *one, const end_t *other) {
    return one->status == other->status && strcmp(one->line, other->line) == 0 && are_same_outputs(one, other);
}

/* Whether the outputs are whole up to one that holds the first of its text. */
static int are_first(const end_t *part, const end_t *whole) {
    for (int at = 0; at < part->outputs; at++) {
        const output_t *a = &part->output[at], *b = &whole->output[at];
        if (at >= whole->outputs || strcmp(a->name, b->name) || a->length > b->length || memcmp(a->at, b->at, a->length < MOST_OUTPUT ? a->length : MOST_OUTPUT))
            return 0;
        if (a->length < b->length && at + 1 < part->outputs)
            return 0;
    }
    return 1;
}

static void run_again(void) {
    now = &ends[1];
    memset(room, (int)below(256), ends[0].high < WARM ? ends[0].high : WARM);
    long took = run();
    again_runs++;
    if (!is_same(&ends[0], now))
        find(DIFFERS, took);
    now = &ends[0];
}

static void run_failing(void) {
    now = &ends[1];
    fail_at = 1 + (long)below((size_t)ends[0].allocations);
    long took = run();
    fail_at = 0;
    failed_runs++;
    int wants = now->status == 10 && strncmp("pdn: Want\n", now->line, strlen(now->line)) == 0 && are_first(now, &ends[0]);
    if (!wants && !is_same(&ends[0], now))
        find(AFTER_FAILING, took);
    now = &ends[0];
}

/* What was written, through `check`, which has to find it whole. */
static void run_check(void) {
    static char usual[] = "check\n--netlist\nnet\n--certificate\ncert\n";
    static text_t held[MOST_FILES];
    static char held_names[MOST_FILES][64];
    int held_files = files, net = -1, cert = -1;
    for (int at = 0; at < now->outputs; at++) {
        net = strcmp(now->output[at].name, "out.net") ? net : at;
        cert = strcmp(now->output[at].name, "out.cert") ? cert : at;
    }
    if (cert < 0 || now->output[cert].length > MOST_OUTPUT || (net >= 0 && now->output[net].length > MOST_OUTPUT))
        return;
    memcpy(held, inputs, sizeof held);
    memcpy(held_names, names, sizeof names);
    text_t netlist = net >= 0 ? (text_t){now->output[net].at, now->output[net].length} : inputs[place_of("net")];
    inputs[0] = netlist;
    inputs[1] = (text_t){now->output[cert].at, now->output[cert].length};
    inputs[2] = (text_t){(unsigned char *)usual, sizeof usual - 1};
    strcpy(names[0], "net");
    strcpy(names[1], "cert");
    files = 3;
    now = &ends[1];
    long took = run();
    int status = now->status;
    files = held_files;
    memcpy(inputs, held, sizeof held);
    memcpy(names, held_names, sizeof names);
    checked_runs++;
    if (status != 0)
        find(UNCHECKED, took);
    now = &ends[0];
}

/* --- changes */

static unsigned char *listed[2][MOST_ENTRIES];
static size_t listed_length[2][MOST_ENTRIES];
static int listed_many[2];

static void read_list(int list, const char *name) {
    static char row[4096];
    FILE *file = file_in(name, "rb");
    while (file && fgets(row, sizeof row, file) && listed_many[list] < MOST_ENTRIES) {
        size_t length = strcspn(row, "\n") / 2;
        unsigned char *at = malloc(length + 1);
        for (size_t byte = 0; byte < length; byte++)
            sscanf(row + 2 * byte, "%2hhx", &at[byte]);
        listed[list][listed_many[list]] = at;
        listed_length[list][listed_many[list]++] = length;
    }
    if (file)
        fclose(file);
}

/* Puts some bytes in the place of others. */
static void put(text_t *text, size_t at, size_t end, const unsigned char *by, size_t length) {
    static unsigned char held[MOST_TEXT];
    if (at > end || end > text->length || length > MOST_TEXT || text->length - (end - at) + length > MOST_TEXT)
        return;
    memcpy(held, by, length);
    memmove(text->at + at + length, text->at + end, text->length - end);
    memcpy(text->at + at, held, length);
    text->length = text->length - (end - at) + length;
}

static int is_blank(unsigned char byte) { return byte == ' ' || byte == '\t' || byte == '\n' || byte == '\r'; }

/* A word of the text, or none of its bytes. */
static void word_at(const text_t *text, size_t *at, size_t *end) {
    *at = *end = below(text->length + 1);
    while (*at < text->length && is_blank(text->at[*at]))
        ++*at;
    *end = *at;
    while (*at > 0 && !is_blank(text->at[*at - 1]))
        --*at;
    while (*end < text->length && !is_blank(text->at[*end]))
        ++*end;
}

static void line_at(const text_t *text, size_t *at, size_t *end) {
    *at = *end = below(text->length + 1);
    while (*at > 0 && text->at[*at - 1] != '\n')
        --*at;
    for (size_t lines = drawn() & 3 ? 1 : 1 + below(6); lines && *end < text->length; lines--) {
        while (*end < text->length && text->at[*end] != '\n')
            ++*end;
        *end += *end < text->length;
    }
}

static int number_at(const text_t *text, size_t *at, size_t *end) {
    *at = below(text->length + 1);
    while (*at < text->length && (text->at[*at] < '0' || text->at[*at] > '9'))
        ++*at;
    while (*at > 0 && ((text->at[*at - 1] >= '0' && text->at[*at - 1] <= '9') || text->at[*at - 1] == '.'))
        --*at;
    *end = *at;
    while (*end < text->length && ((text->at[*end] >= '0' && text->at[*end] <= '9') || text->at[*end] == '.'))
        ++*end;
    return *end > *at;
}

static void change_bytes(text_t *text) {
    static const unsigned char often[] = " \t\r\n\0+-.0123456789eERVICvid_npkmgMEG\"'{}()[];#*$\\\x7f\x80\xff";
    unsigned char byte = drawn() & 3 ? often[below(sizeof often - 1)] : (unsigned char)drawn();
    size_t at = below(text->length + 1), end = at + (at < text->length ? 1 : 0);
    switch (below(5)) {
    case 0: put(text, at, end, &byte, 1); break;
    case 1: put(text, at, at, &byte, 1); break;
    case 2: put(text, at, end, &byte, 0); break;
    case 3: if (at < text->length) text->at[at] ^= (unsigned char)(1 << below(8)); break;
    default: text->length = drawn() & 7 ? text->length : at;
    }
}

static void change_range(text_t *text) {
    size_t at = below(text->length + 1), length = 1 + below(drawn() & 3 ? 12 : 200), to = below(text->length + 1);
    size_t end = at + length < text->length ? at + length : text->length;
    switch (below(3)) {
    case 0: put(text, at, end, text->at, 0); break;
    case 1: put(text, to, to, text->at + at, end - at); break;
    default: put(text, to, to + length < text->length ? to + length : text->length, text->at + at, end - at);
    }
}

static void change_word(text_t *text) {
    size_t at, end, from, until;
    word_at(text, &at, &end);
    if (drawn() & 1 && listed_many[0]) {
        int entry = (int)below((size_t)listed_many[0]);
        unsigned char with[300];
        size_t length = listed_length[0][entry] < 290 ? listed_length[0][entry] : 290;
        memcpy(with, listed[0][entry], length);
        with[length] = drawn() & 15 ? ' ' : '\n';
        if (drawn() & 1)
            put(text, at, end, with, length);
        else
            put(text, at, at, with, length + 1);
        return;
    }
    word_at(text, &from, &until);
    switch (below(4)) {
    case 0: put(text, at, end, text->at + from, until - from); break;
    case 1: put(text, at, end < text->length ? end + 1 : end, text->at, 0); break;
    case 2: put(text, at, at, text->at + from, until < text->length ? until + 1 - from : until - from); break;
    default: { /* two words change places */
        static unsigned char held[MOST_TEXT];
        size_t length = end - at;
        if (from < end)
            return;
        memcpy(held, text->at + at, length);
        put(text, at, end, text->at + from, until - from);
        size_t moved = (until - from) - length;
        put(text, from + moved, until + moved, held, length);
    }
    }
}

static void change_line(text_t *text) {
    size_t at, end, from, until;
    line_at(text, &at, &end);
    line_at(text, &from, &until);
    switch (below(6)) {
    case 0: put(text, at, end, text->at, 0); break;
    case 1: put(text, at, at, text->at + from, until - from); break;
    case 2: put(text, at, end, text->at + from, until - from); break;
    case 3: put(text, end, end, text->at + at, end - at); break;
    case 4: put(text, at < from ? at : from, at < from ? from : at, text->at, 0); break;
    default:
        for (size_t times = 1 + below(drawn() & 7 ? 6 : 60); times; times--)
            put(text, end, end, text->at + at, end - at);
    }
}

static void change_number(text_t *text) {
    size_t at, end, from, until;
    unsigned char with[64];
    if (!number_at(text, &at, &end))
        return;
    int length = 0;
    long value = strtol((char[24]){0}, 0, 10);
    if (end - at < 18) {
        char digits[24] = {0};
        memcpy(digits, text->at + at, end - at);
        value = strtol(digits, 0, 10);
    }
    switch (below(6)) {
    case 0: case 1:
        if (listed_many[1]) {
            int entry = (int)below((size_t)listed_many[1]);
            put(text, at, end, listed[1][entry], listed_length[1][entry]);
        }
        return;
    case 2: length = snprintf((char *)with, sizeof with, "%ld", value + (drawn() & 1 ? 1 : -1)); break;
    case 3: length = snprintf((char *)with, sizeof with, "%ld", drawn() & 1 ? value * 2 : value / 2); break;
    case 4: length = snprintf((char *)with, sizeof with, "%s%zu", drawn() & 3 ? "" : "-", below(drawn() & 1 ? 20 : 20000)); break;
    default:
        if (number_at(text, &from, &until))
            put(text, at, end, text->at + from, until - from);
        return;
    }
    put(text, at, end, with, (size_t)length);
}

static void change_mark(text_t *text) {
    static const unsigned char marks[] = "\"{}[]();'\\$+*#";
    unsigned char with[3] = {' ', marks[below(sizeof marks - 1)], ' '};
    size_t at = below(text->length + 1);
    if (drawn() & 1) {
        size_t from = drawn() & 1;
        put(text, at, at, with + from, drawn() & 1 ? 1 : 2);
        return;
    }
    while (at < text->length && !memchr(marks, text->at[at], sizeof marks - 1))
        at++;
    if (at < text->length)
        put(text, at, at + 1, with, 0);
}

/* Lines of the same input of another set, or its text from a line on. */
static void change_by_another(text_t *text, int file) {
    const text_t *other = &sets[below((size_t)many)].file[file];
    size_t at, end, from, until;
    line_at(text, &at, &end);
    line_at(other, &from, &until);
    switch (below(4)) {
    case 0: put(text, at, at, other->at + from, until - from); break;
    case 1: put(text, at, end, other->at + from, until - from); break;
    case 2: put(text, at, text->length, other->at + from, other->length - from); break;
    default: put(text, 0, text->length, other->at, other->length);
    }
}

static void change(text_t *text, int file) {
    int times = 1 << below(drawn() & 3 ? 3 : 6);
    for (int time = 1 + (int)below((size_t)times); time; time--)
        switch (below(16)) {
        case 0: case 1: change_bytes(text); break;
        case 2: change_range(text); break;
        case 3: case 4: case 5: case 6: change_word(text); break;
        case 7: case 8: case 9: change_line(text); break;
        case 10: case 11: case 12: change_number(text); break;
        case 13: change_mark(text); break;
        default: change_by_another(text, file);
        }
}

/* --- the loop */

static long best_for[64];
static int champion[64];

static size_t bytes_of(void) {
    size_t all = 0;
    for (int at = 0; at < files; at++)
        all += inputs[at].length;
    return all;
}

/* Whether the run took more for its bytes than any before of about as many; measured twice more, since the machine may have been busy. */
static int is_champion(long took) {
    size_t bytes = bytes_of();
    unsigned size = steps_of(bytes) / 2 & 63;
    long each = took * 16 / (long)(bytes + 64);
    if (each <= best_for[size] + best_for[size] / 4)
        return -1;
    for (int time = 0; time < 2; time++) {
        now = &ends[1];
        long other = run();
        now = &ends[0];
        took = other < took ? other : took;
    }
    each = took * 16 / (long)(bytes + 64);
    if (each <= best_for[size] + best_for[size] / 4)
        return -1;
    best_for[size] = each;
    return (int)size;
}

static void keep(int number) {
    FILE *file = file_in("kept", "ab");
    keep_at(number);
    if (file) {
        write_set(file);
        fclose(file);
    }
}

static void keep_slow(long took) {
    int size = is_champion(took);
    if (size < 0 || bytes_of() > MOST_KEPT_TEXT * 2)
        return;
    if (champion[size] < 0 && many < MOST_SETS)
        champion[size] = many++;
    if (champion[size] >= 0)
        keep(champion[size]);
}

static void load(int number) {
    for (int at = 0; at < files; at++) {
        inputs[at].length = sets[number].file[at].length;
        memcpy(inputs[at].at, sets[number].file[at].at, inputs[at].length);
    }
}

/* Of some sets the one over whose changes the least time was spent, so that slow ones take no more of it than others. */
static int picked(void) {
    int best = (int)below((size_t)many);
    for (int time = 0; time < 2; time++) {
        int other = drawn() & 1 ? (int)below((size_t)many) : many - 1 - (int)below((size_t)(many < 64 ? many : 64));
        best = sets[other].spent < sets[best].spent ? other : best;
    }
    return best;
}

static int changed_file(void) {
    return files == 1 || drawn() % 16 == 0 ? files - 1 : (int)below((size_t)files - 1);
}

/* Whether changes of a set are worth their time: those of one that fills the memory, or takes long, do so too. */
static int is_fit(long took) { return took < SLOW / 4 && now->status != 10; }

static void one_run(void) {
    int from = picked();
    load(from);
    int file = changed_file();
    change(&inputs[file], file);
    if (drawn() % 6 == 0) {
        int other = changed_file();
        change(&inputs[other], other);
    }
    long took = run();
    runs++;
    runs_of[file]++;
    spent += took;
    sets[from].spent += took + 5000;
    most_time = took > most_time ? took : most_time;
    judge(took);
    if (now->status < 0)
        return;
    int fresh = is_fresh();
    if (is_fit(took) && bytes_of() <= MOST_KEPT_TEXT * (size_t)files) {
        if (fresh && many < MOST_SETS)
            keep(many++);
        keep_slow(took);
    }
    size_t turn = below(256);
    if ((fresh || turn < 2) && took < SLOW / 10)
        run_again();
    if ((fresh || turn < 6) && took < SLOW / 10 && are_usual() && now->status != 10)
        run_failing();
    if ((fresh || turn < 16) && now->status < 2 && are_usual() && took < SLOW / 10 && outputs_wanted && !strstr(words_text, "step"))
        run_check();
    new_blocks = 0;
}

static void write_counts(long seconds) {
    FILE *file = file_in("counts.part", "wb");
    if (!file)
        return;
    fprintf(file, "{\"runs\": %ld, \"seconds\": %ld, \"sets\": %d, \"blocks\": %ld, \"of_blocks\": %ld, \"again\": %ld, \"failing\": %ld, \"checked\": %ld, \"longest_ms\": %ld, \"inside_seconds\": %ld",
            runs, seconds, many, met_blocks, blocks, again_runs, failed_runs, checked_runs, most_time / 1000000, spent / 1000000000);
    for (int at = 0; at < files; at++)
        fprintf(file, ", \"runs_of_%s\": %ld", names[at], runs_of[at]);
    for (int kind = 0; KINDS[kind]; kind++)
        fprintf(file, ", \"%s\": %ld", KINDS[kind], counted[kind]);
    for (int status = 0; status < 32; status++)
        if (status_counts[status])
            fprintf(file, ", \"status_%d\": %ld", status, status_counts[status]);
    fprintf(file, "}\n");
    fclose(file);
    char from[4096], to[4096];
    snprintf(from, sizeof from, "%s/counts.part", folder);
    snprintf(to, sizeof to, "%s/counts", folder);
    rename(from, to);
}

/* Runs over the sets of a file, and keeps those that show something new. */
static void run_seeds(const char *name, FILE *cover) {
    FILE *file = file_in(name, "rb");
    for (int number = 0; file && read_set(file, inputs); number++) {
        long took = run(), fresh_blocks = new_blocks;
        judge(took);
        if (now->status < 0 || !is_fresh() || many == MOST_SETS || !is_fit(took))
            continue;
        keep_at(many++);
        if (cover)
            fprintf(cover, "%d %ld\n", number, fresh_blocks);
    }
    if (file)
        fclose(file);
}

static void prepare(void) {
    char row[256];
    room = region(ROOM);
    for (int at = 0; at < MOST_FILES; at++) {
        inputs[at].at = malloc(MOST_TEXT);
        for (int end = 0; end < 2; end++)
            ends[end].output[at].at = region(MOST_OUTPUT);
    }
    FILE *file = file_in("names", "r");
    while (file && files < MOST_FILES && fgets(names[files], sizeof names[files], file)) {
        names[files][strcspn(names[files], "\n")] = 0;
        files++;
    }
    fclose(file);
    file = file_in("statuses", "r");
    if (!file || !fgets(statuses, sizeof statuses, file) || !fgets(row, sizeof row, file))
        _exit(92);
    outputs_wanted = atoi(row);
    fclose(file);
    file = file_in("seeds", "rb");
    if (!file || !read_set(file, inputs))
        _exit(91);
    fclose(file);
    usual_words.length = inputs[files - 1].length;
    usual_words.at = malloc(usual_words.length + 1);
    memcpy(usual_words.at, inputs[files - 1].at, usual_words.length);
    memset(champion, -1, sizeof champion);
    read_list(0, "dictionary");
    read_list(1, "numbers");
}

static int driver(int count, char **given, char **unused) {
    (void)unused;
    if (count < 5)
        return 90;
    folder = given[1];
    long seconds = atol(given[2]), most = atol(given[3]);
    state = strtoull(given[4], 0, 10) * 0x9E3779B97F4A7C15ULL + 1;
    prepare();
    FILE *file = file_in("blocks", "r");
    if (!file)
        return 89;
    put_breakpoints(file);
    fclose(file);
    catch_signals();
    FILE *cover = most ? 0 : file_in("cover", "w");
    run_seeds("seeds", cover);
    if (cover)
        fclose(cover);
    if (most)
        run_seeds("kept", 0);
    long begun = time(0), told = begun;
    while (runs < most && time(0) - begun < seconds && many) {
        for (int time = 0; time < 64 && runs < most; time++)
            one_run();
        if (time(0) - told >= 10) {
            told = time(0);
            write_counts(told - begun);
        }
    }
    write_counts(time(0) - begun);
    _exit(0);
}

int __libc_start_main(int (*main)(int, char **, char **), int count, char **given, void (*init)(void), void (*fini)(void), void (*last)(void), void *end) {
    int (*real)(int (*)(int, char **, char **), int, char **, void (*)(void), void (*)(void), void (*)(void), void *) =
        (int (*)(int (*)(int, char **, char **), int, char **, void (*)(void), void (*)(void), void (*)(void), void *))dlsym(RTLD_NEXT, "__libc_start_main");
    program = main;
    return real(getenv("FUZZ_INSIDE") ? driver : main, count, given, init, fini, last, end);
}
