// Makes the calls that random_calls.py requests, one after another, and reports what they returned
// and wrote. Each pointer's memory lies between two pages without access, and no block of memory may
// be left allocated. One flag repeats a call with each allocation refused in turn, another on eight
// threads at once and, without sanitizers, with small stacks and in a forked child. No call may
// change a signal handler. Must be linked with --wrap=malloc, --wrap=realloc and --wrap=free.
//
// A request, in the byte order of the machine: the index of the call in Header.functions of
// header.py, flags, and the number of arguments, one byte each; then for each argument its kind and
// its shift, one byte each, a number of 8 bytes, and for a buffer that many bytes. The answer: the
// result, 8 bytes; one byte, 1 if no byte around a buffer changed, no block is left and the repeated
// calls agree, else 0; the number of refused allocations, and of those after which the call was out
// of memory, 8 bytes each; the report; the bytes of all buffers.
#include <agefile.h>
#include <pthread.h>
#include <signal.h>
#include <stdio.h>
#include <stdlib.h>
#include <string.h>
#include <sys/mman.h>
#include <sys/wait.h>
#include <unistd.h>

enum { most_arguments = 16, thread_count = 8, canary = 0xC7, unset = 0xEE };
enum kind { NUMBER, BUFFER, NULL_POINTER };
enum flag { AT_START = 1, REFUSING = 2, THREADS = 4 };
static const size_t page = 4096;
// The stack of a thread, as small as the system allows. A sanitizer takes more, and a child that is
// forked beside threads may wait for its locks for ever.
#ifdef SANITIZED
enum { stack_size = 1 << 20, can_fork = false };
#else
enum { stack_size = 16 * 1024, can_fork = true };
#endif

// An argument: a number, a buffer with its initial bytes, or a null pointer with a length.
struct argument {
    uint8_t kind, shift;
    uint64_t number;
    uint8_t *first;
};

struct call {
    uint8_t index, flags, count;
    struct argument arguments[most_arguments];
};

void *__real_malloc(size_t size);
void *__real_realloc(void *old, size_t size);
void __real_free(void *old);

// For this thread: allocations since the call began, the one to be refused, and blocks not yet
// freed.
static __thread long allocations, refused, live;
static __thread bool is_counting;

static bool is_refused(void)
{
    return is_counting && ++allocations == refused;
}

void *__wrap_malloc(size_t size)
{
    if (is_refused())
        return NULL;
    live += is_counting;
    return __real_malloc(size);
}

void *__wrap_realloc(void *old, size_t size)
{
    if (is_refused())
        return NULL;
    live += is_counting && old == NULL;
    return __real_realloc(old, size);
}

void __wrap_free(void *old)
{
    live -= is_counting && old != NULL;
    __real_free(old);
}

// The memory of one call.
struct memory {
    uint8_t *maps[most_arguments + 1], *pointers[most_arguments + 1];
};

static void give_up(const char *why)
{
    fprintf(stderr, "driver: %s\n", why);
    exit(3);
}

static size_t own_pages(size_t len, size_t shift)
{
    return (len + shift + page - 1) / page * page;
}

// Maps a buffer between two pages without access; the rest of its own pages has known bytes.
static void map_buffer(struct memory *memory, int i, const uint8_t *bytes, size_t len, size_t shift, bool at_start)
{
    size_t own = own_pages(len, shift);
    uint8_t *map = mmap(NULL, own + 2 * page, PROT_READ | PROT_WRITE, MAP_PRIVATE | MAP_ANONYMOUS, -1, 0);
    if (map == MAP_FAILED || mprotect(map, page, PROT_NONE) != 0 || mprotect(map + page + own, page, PROT_NONE) != 0)
        give_up("no memory");
    memset(map + page, canary, own);
    memory->maps[i] = map;
    memory->pointers[i] = map + page + (at_start ? shift : own - len - shift);
    if (len > 0)
        memcpy(memory->pointers[i], bytes, len);
}

// Whether the bytes around a buffer are unchanged.
static bool is_surrounding_kept(const struct memory *memory, int i, size_t len, size_t shift)
{
    const uint8_t *own = memory->maps[i] + page;
    size_t size = own_pages(len, shift), at = (size_t)(memory->pointers[i] - own);
    for (size_t j = 0; j < size; j++)
        if ((j < at || j >= at + len) && own[j] != canary)
            return false;
    return true;
}

static void map_all(struct memory *memory, const struct call *call)
{
    uint8_t report[sizeof(agefile_report)];
    memset(report, unset, sizeof report);
    for (int i = 0; i < call->count; i++) {
        const struct argument *a = &call->arguments[i];
        memory->maps[i] = memory->pointers[i] = NULL;
        if (a->kind == BUFFER)
            map_buffer(memory, i, a->first, a->number, a->shift, call->flags & AT_START);
    }
    map_buffer(memory, call->count, report, sizeof report, 0, call->flags & AT_START);
}

static void unmap_all(struct memory *memory, const struct call *call)
{
    for (int i = 0; i < call->count; i++)
        if (memory->maps[i] != NULL)
            munmap(memory->maps[i], own_pages(call->arguments[i].number, call->arguments[i].shift) + 2 * page);
    munmap(memory->maps[call->count], own_pages(sizeof(agefile_report), 0) + 2 * page);
}

static bool are_surroundings_kept(const struct memory *memory, const struct call *call)
{
    for (int i = 0; i < call->count; i++)
        if (memory->maps[i] != NULL && !is_surrounding_kept(memory, i, call->arguments[i].number, call->arguments[i].shift))
            return false;
    return is_surrounding_kept(memory, call->count, sizeof(agefile_report), 0);
}

// make_call and opened_by, generated by header.py.
#include "driver_calls.h"

static uint64_t make(const struct call *call, const struct memory *m)
{
    return make_call(call->index, call->arguments, m->pointers, (agefile_report *)(void *)m->pointers[call->count]);
}

// Whether after a refused allocation a struct to be opened is closed, the report is zeros, and
// everything else is unchanged.
static bool is_kept(const struct memory *memory, const struct call *call)
{
    static const uint8_t zeros[sizeof(agefile_payload) + sizeof(agefile_ranges)];
    for (int i = 0; i < call->count; i++) {
        const struct argument *a = &call->arguments[i];
        const uint8_t *expected = i == opened_by(call->index) ? zeros : a->first;
        if (a->kind == BUFFER && a->number > 0 && memcmp(memory->pointers[i], expected, a->number) != 0)
            return false;
    }
    return memcmp(memory->pointers[call->count], zeros, sizeof(agefile_report)) == 0;
}

struct turn {
    const struct call *call;
    struct memory memory;
    uint64_t result, refusals, out_of_memory;
    bool is_well;
};

static void *take(void *argument)
{
    struct turn *turn = argument;
    map_all(&turn->memory, turn->call);
    allocations = live = 0, is_counting = true;
    turn->result = make(turn->call, &turn->memory);
    is_counting = false;
    turn->is_well = live == 0 && are_surroundings_kept(&turn->memory, turn->call);
    return NULL;
}

static bool is_same_turn(const struct turn *a, const struct turn *b)
{
    const struct call *call = a->call;
    for (int i = 0; i < call->count; i++)
        if (call->arguments[i].kind == BUFFER && call->arguments[i].number > 0 &&
            memcmp(a->memory.pointers[i], b->memory.pointers[i], call->arguments[i].number) != 0)
            return false;
    return a->result == b->result && memcmp(a->memory.pointers[call->count], b->memory.pointers[call->count], sizeof(agefile_report)) == 0;
}

// Makes the call with each allocation refused in turn, until none is. Returns whether each run left
// no block, kept the bytes around buffers, and was out of memory or gave the usual result.
static bool refuses_each(struct turn *usual)
{
    bool is_well = true, was_refused = true;
    for (refused = 1; is_well && was_refused; refused++) {
        struct turn turn = {.call = usual->call};
        take(&turn);
        was_refused = allocations >= refused;
        bool is_out = was_refused && turn.result == AGEFILE_OUT_OF_MEMORY && is_kept(&turn.memory, turn.call);
        is_well = turn.is_well && (is_out || is_same_turn(usual, &turn));
        unmap_all(&turn.memory, turn.call);
        if (!is_well)
            fprintf(stderr, "driver: allocation %ld: code %d, %ld blocks left\n", refused, (int)turn.result, live);
        usual->refusals += was_refused;
        usual->out_of_memory += is_out;
    }
    refused = 0;
    return is_well;
}

// Whether a forked child gets the same result.
static bool agrees_in_a_child(const struct turn *first)
{
    int status;
    pid_t child = fork();
    if (child == 0) {
        struct turn turn = {.call = first->call};
        take(&turn);
        _exit(!turn.is_well || !is_same_turn(first, &turn));
    }
    return child > 0 && waitpid(child, &status, 0) == child && status == 0;
}

// Makes a call on eight threads at once, with another call, if there is one, on every second thread,
// and meanwhile, if it can fork, in a child. Returns whether each gave the result of the first time.
static bool agrees_on_threads(const struct turn *first, const struct turn *other)
{
    pthread_t ids[thread_count];
    struct turn turns[thread_count];
    pthread_attr_t attributes;
    if (pthread_attr_init(&attributes) != 0 || pthread_attr_setstacksize(&attributes, stack_size) != 0)
        give_up("no such stack");
    for (int i = 0; i < thread_count; i++) {
        turns[i] = (struct turn){.call = i % 2 && other->call ? other->call : first->call};
        if (pthread_create(&ids[i], &attributes, take, &turns[i]) != 0)
            give_up("no thread");
    }
    bool is_well = !can_fork || agrees_in_a_child(first);
    for (int i = 0; i < thread_count; i++) {
        pthread_join(ids[i], NULL);
        is_well &= turns[i].is_well && is_same_turn(turns[i].call == first->call ? first : other, &turns[i]);
        unmap_all(&turns[i].memory, turns[i].call);
    }
    return is_well;
}

static void get(void *bytes, size_t len)
{
    if (fread(bytes, 1, len, stdin) != len)
        give_up("a request ends early");
}

static void put(const void *bytes, size_t len)
{
    if (len > 0 && fwrite(bytes, 1, len, stdout) != len)
        give_up("no answer");
}

// Reads a request; false at the end.
static bool get_call(struct call *call)
{
    if (fread(&call->index, 1, 1, stdin) != 1)
        return false;
    get(&call->flags, 1);
    get(&call->count, 1);
    if (call->count > most_arguments)
        give_up("too many arguments");
    for (int i = 0; i < call->count; i++) {
        struct argument *a = &call->arguments[i];
        get(&a->kind, 1);
        get(&a->shift, 1);
        get(&a->number, 8);
        a->first = NULL;
        if (a->kind == BUFFER) {
            a->first = __real_malloc(a->number + 1);
            if (a->first == NULL)
                give_up("no memory");
            get(a->first, a->number);
        }
    }
    return true;
}

static void answer(const struct turn *turn, uint8_t is_well)
{
    const struct call *call = turn->call;
    put(&turn->result, sizeof turn->result);
    put(&is_well, 1);
    put(&turn->refusals, sizeof turn->refusals);
    put(&turn->out_of_memory, sizeof turn->out_of_memory);
    put(turn->memory.pointers[call->count], sizeof(agefile_report));
    for (int i = 0; i < call->count; i++)
        if (call->arguments[i].kind == BUFFER)
            put(turn->memory.pointers[i], call->arguments[i].number);
    fflush(stdout);
}

static void let_go(struct turn *turn)
{
    if (turn->call == NULL)
        return;
    for (int i = 0; i < turn->call->count; i++)
        __real_free(turn->call->arguments[i].first);
    unmap_all(&turn->memory, turn->call);
    turn->call = NULL;
}

int main(void)
{
    // The call at hand, and the last one that was made on threads.
    static struct call calls[2];
    static struct turn turns[2];
    struct sigaction before[65], after;
    for (int i = 1; i < 65; i++)
        sigaction(i, NULL, &before[i]);
    for (int now = 0; get_call(&calls[now]); let_go(&turns[now])) {
        const uint8_t flags = calls[now].flags;
        struct turn *turn = &turns[now];
        *turn = (struct turn){.call = &calls[now]};
        take(turn);
        answer(turn, turn->is_well && (!(flags & REFUSING) || refuses_each(turn)) && (!(flags & THREADS) || agrees_on_threads(turn, &turns[1 - now])));
        now ^= flags & THREADS ? 1 : 0;
    }
    for (int i = 1; i < 65; i++)
        if (sigaction(i, NULL, &after) == 0 && after.sa_handler != before[i].sa_handler)
            give_up("a signal handler was changed");
    return 0;
}
