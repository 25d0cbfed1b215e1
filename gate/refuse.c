/* Refuses memory to a program that it is preloaded into (LD_PRELOAD): of the program's growths, which are the calls
   of malloc and realloc counted from 1, those from REFUSE_FROM to REFUSE_TO fail. A realloc to no more than the block has
   gives memory back, and is none. If REFUSE_THREADS is not 0, no thread can be made. If STOP_AT_SYNC is not 0, the program stops, as by
   SIGSTOP, before it first asks that a file be written to the disk. To the descriptor REFUSE_REPORT it writes a '+' as it starts and a '-' for each growth that it refuses.

   Names are declared here, since the compiler of the Rattle kit, which compiles this file, comes without headers. */

typedef __SIZE_TYPE__ size_t;

void *dlsym(void *library, const char *name);
size_t malloc_usable_size(void *block);
char *getenv(const char *name);
unsigned long strtoul(const char *text, char **end, int base);
long write(int descriptor, const void *bytes, size_t count);
int raise(int signal);
int *__errno_location(void);

#define NEXT_LIBRARY ((void *)-1L)
#define STOP 19
#define TRY_AGAIN 11
#define OUT_OF_MEMORY 12

static void *(*next_malloc)(size_t);
static void *(*next_realloc)(void *, size_t);
static int (*next_thread)(void *, const void *, void *(*)(void *), void *);
static int (*next_sync)(int);
static unsigned long first, last, growths;
static int report;
static int refuses_threads;
static int stops_at_sync;

static unsigned long number(const char *name) {
    const char *text = getenv(name);
    return text ? strtoul(text, 0, 10) : 0;
}

__attribute__((constructor)) static void start(void) {
    if (next_malloc)
        return;
    next_realloc = dlsym(NEXT_LIBRARY, "realloc");
    next_malloc = dlsym(NEXT_LIBRARY, "malloc");
    next_thread = dlsym(NEXT_LIBRARY, "pthread_create");
    next_sync = dlsym(NEXT_LIBRARY, "fsync");
    stops_at_sync = number("STOP_AT_SYNC") != 0;
    refuses_threads = number("REFUSE_THREADS") != 0;
    first = number("REFUSE_FROM");
    last = number("REFUSE_TO");
    report = number("REFUSE_REPORT");
    write(report, "+", 1);
}

static int is_refused(void) {
    start();
    unsigned long growth = __atomic_add_fetch(&growths, 1, __ATOMIC_SEQ_CST);
    if (growth < first || last < growth)
        return 0;
    write(report, "-", 1);
    *__errno_location() = OUT_OF_MEMORY;
    return 1;
}

void *malloc(size_t size) {
    return is_refused() ? 0 : next_malloc(size);
}

void *realloc(void *old, size_t size) {
    start();
    int shrinks = old && size <= malloc_usable_size(old);
    return !shrinks && is_refused() ? 0 : next_realloc(old, size);
}

int pthread_create(void *thread, const void *how, void *(*body)(void *), void *given) {
    return refuses_threads ? TRY_AGAIN : next_thread(thread, how, body, given);
}

int fsync(int descriptor) {
    int stops = stops_at_sync;
    stops_at_sync = 0;
    if (stops)
        raise(STOP);
    return next_sync(descriptor);
}
