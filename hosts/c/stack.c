/*
 * Every export with no more stack than bafirolen.h promises: on a thread that has just that many bytes left, below which no byte
 * can be touched, and what it answers and leaves there is what it answers and leaves further up. Writes the most bytes that each
 * export took, the frame of the function that calls it included, and `compared N cases`; a difference is written to standard
 * error, an export that takes more than was promised likewise, and the exit status is 1. It runs without valgrind.
 *
 *     tools/archives
 *     gcc -std=c99 -O2 -Wall -Wextra -Iinclude hosts/c/stack.c target/staticlib/libbafirolen_c.a -lpthread -o target/stack
 */
#define _GNU_SOURCE
#include "calls.h"
#include "compare.h"

#include <pthread.h>
#include <signal.h>
#include <stdlib.h>
#include <sys/mman.h>
#include <ucontext.h>
#include <unistd.h>

#define PAINT 0xA5
#define GUARD 1048576
/* the lower part of the thread's stack, for the calls that are tried, and its upper part, for everything else */
#define LOWER (BAFIROLEN_STACK_WRITE > BAFIROLEN_STACK_LISTED ? BAFIROLEN_STACK_WRITE : BAFIROLEN_STACK_LISTED)
#define UPPER 1048576

static struct lent further_up, at_the_end;
static const uint8_t absent[2] = {0x7F, 0x7F};

static struct export {
    const char *name;
    void (*call)(void);
    size_t promised, most;
} exports[] = {{"bafirolen_version", version, BAFIROLEN_STACK_KEYS, 0},
               {"bafirolen_read_aad_section", read_context, BAFIROLEN_STACK_READ, 0},
               {"bafirolen_read_header_body", read_body, BAFIROLEN_STACK_READ, 0},
               {"bafirolen_find_value", find, BAFIROLEN_STACK_READ, 0},
               {"bafirolen_copy_value", copy, BAFIROLEN_STACK_READ, 0},
               {"bafirolen_read_encrypted_data_keys_section", read_keys, BAFIROLEN_STACK_KEYS, 0},
               {"bafirolen_write_encrypted_data_keys_section", write_keys, BAFIROLEN_STACK_KEYS, 0},
               {"bafirolen_read_header_auth_tag", read_record, BAFIROLEN_STACK_KEYS, 0},
               {"bafirolen_write_header_auth_tag", write_record, BAFIROLEN_STACK_KEYS, 0},
               {"bafirolen_read_frames", read_frames, BAFIROLEN_STACK_KEYS, 0},
               {"bafirolen_write_frames", write_frames, BAFIROLEN_STACK_KEYS, 0},
               {"bafirolen_frames_len", frames_length, BAFIROLEN_STACK_KEYS, 0},
               {"bafirolen_write_only_authenticated", write_only_authenticated, BAFIROLEN_STACK_ONLY_AUTHENTICATED, 0},
               {"bafirolen_header_number", number, BAFIROLEN_STACK_LISTED, 0},
               {"bafirolen_header_position", position, BAFIROLEN_STACK_LISTED, 0},
               {"bafirolen_write_listing", listing, BAFIROLEN_STACK_LISTED, 0},
               {"bafirolen_write_aad_section", write_context, BAFIROLEN_STACK_WRITE, 0},
               {"bafirolen_write_header_body", write_body, BAFIROLEN_STACK_WRITE, 0},
               {"bafirolen_header_body_len", body_length, BAFIROLEN_STACK_WRITE, 0},
               {"bafirolen_read_header_body_under_policy", read_body_under, BAFIROLEN_STACK_READ, 0},
               {"bafirolen_write_header_body_under_policy", write_body_under, BAFIROLEN_STACK_WRITE, 0},
               {"bafirolen_header_body_len_under_policy", body_length_under, BAFIROLEN_STACK_WRITE, 0},
               {"bafirolen_drop_encrypted_data_keys", drop_keys, BAFIROLEN_STACK_READ, 0},
               {"bafirolen_add_encrypted_data_key", add_key, BAFIROLEN_STACK_READ, 0},
               {"bafirolen_reissue_header_body", reissue, BAFIROLEN_STACK_READ, 0},
               {"bafirolen_reissued_header_body_len", reissued_length, BAFIROLEN_STACK_READ, 0}};

/* the stack's lowest byte, above the guard; and what is written where a call reaches the guard */
static uint8_t *lowest;
static char overrun[160];

static void on_fault(int signal, siginfo_t *info, void *context)
{
    const uint8_t *at = info->si_addr;
    const char *text = at >= lowest - GUARD && at < lowest ? overrun : "a fault that is not the stack's\n";
    (void)signal;
    (void)context;
    _exit(write(2, text, strlen(text)) < 0 ? 2 : 1);
}

static void make_sure(const char *what, int done)
{
    if (!done) {
        perror(what);
        exit(1);
    }
}

/* a fault of this thread is handled on another stack, since its own is used up */
static void handle_faults(void)
{
    static uint8_t for_faults[65536];
    stack_t other;
    struct sigaction action;
    memset(&other, 0, sizeof other);
    other.ss_sp = for_faults;
    other.ss_size = sizeof for_faults;
    memset(&action, 0, sizeof action);
    action.sa_sigaction = on_fault;
    action.sa_flags = SA_SIGINFO | SA_ONSTACK;
    make_sure("sigaltstack", sigaltstack(&other, NULL) == 0);
    make_sure("sigaction", sigaction(SIGSEGV, &action, NULL) == 0 && sigaction(SIGBUS, &action, NULL) == 0);
}

/* the call with the lowest `size` bytes of the stack: how many of them it changed */
static size_t taken(void (*call)(void), size_t size)
{
    static ucontext_t here, there;
    size_t kept = 0;
    memset(lowest, PAINT, size);
    make_sure("getcontext", getcontext(&there) == 0);
    there.uc_stack.ss_sp = lowest;
    there.uc_stack.ss_size = size;
    there.uc_link = &here;
    makecontext(&there, call, 0);
    make_sure("swapcontext", swapcontext(&here, &there) == 0);
    while (kept < size && lowest[kept] == PAINT) {
        kept++;
    }
    return size - kept;
}

static struct lent *lend(struct lent *l)
{
    memset(l->pairs, KEPT, sizeof *l->pairs * pairs_len);
    memset(l->keys, KEPT, sizeof *l->keys * keys_len);
    memset(l->frames, KEPT, sizeof *l->frames * frames_len);
    memset(l->out, KEPT, out_len);
    memset(&l->answer, 0, sizeof l->answer);
    return l;
}

/* frames that a writer takes are as long as those that were built, and beyond 65,535 of them it takes none */
static void frames_accepted(const struct export *e)
{
    const int most = frames.count <= 65535;
    same(e->name, at_the_end.answer.number, most ? BAFIROLEN_ACCEPTED : BAFIROLEN_REFUSED_COUNT_OR_PART_TOO_LONG);
    same(e->name, at_the_end.answer.written.length, most ? frames.length : 0);
    if (e->call == write_frames && most) {
        same_bytes(e->name, at_the_end.out, frames.bytes, frames.length);
    }
}

/* a draft that has several keys keeps its last one; one that has as many as there can be takes no other */
static void mended(const struct export *e)
{
    const int drops = e->call == drop_keys;
    const uint64_t number = shape.keys == 0                   ? BAFIROLEN_REFUSED_NO_ENCRYPTED_DATA_KEY
                          : drops && shape.keys == 1          ? BAFIROLEN_REFUSED_NO_KEY_REMAINS
                          : !drops && shape.keys == MOST_KEYS ? BAFIROLEN_REFUSED_COUNT_OR_PART_TOO_LONG
                                                              : BAFIROLEN_ACCEPTED;
    const size_t dropped = (shape.keys - 1) * (shape.keys < 1000 ? 9 : 6);
    const size_t length = drops ? body.length - dropped : body.length + 20;
    same(e->name, at_the_end.answer.number, number);
    same(e->name, at_the_end.answer.written.length, number == BAFIROLEN_ACCEPTED ? length : 0);
}

/* a draft of version 1 becomes 42 bytes longer, or 40 where it is of the old form */
static void reissued(const struct export *e)
{
    const uint64_t number = shape.version == 2 ? BAFIROLEN_REFUSED_OTHER_VERSION
                          : shape.keys == 0    ? BAFIROLEN_REFUSED_NO_ENCRYPTED_DATA_KEY
                                               : BAFIROLEN_ACCEPTED;
    const size_t length = body.length + (shape.form == BAFIROLEN_OLD ? 40 : 42);
    same(e->name, at_the_end.answer.number, number);
    same(e->name, at_the_end.answer.written.length, number == BAFIROLEN_ACCEPTED ? length : 0);
}

/* a body without a fault is accepted: what takes the most stack is not left out by a refusal; and where there is no key, those
 * that read or write keys refuse it */
static void accepted(const struct export *e)
{
    const int bare = e->call == version || e->call == number || e->call == position;
    const int finds = e->call == find || e->call == copy;
    const int writes = e->call == write_body || e->call == write_body_under;
    const int measures = e->call == body_length || e->call == body_length_under;
    const int of_keys = e->call == read_body || e->call == read_body_under || e->call == read_keys || e->call == write_keys
                        || writes || measures;
    if (shape.fault != NO_FAULT) {
        return;
    }
    if (e->call == write_frames || e->call == frames_length) {
        frames_accepted(e);
    } else if (e->call == drop_keys || e->call == add_key) {
        mended(e);
    } else if (e->call == reissue || e->call == reissued_length) {
        reissued(e);
    } else if (shape.keys == 0 && (of_keys || e->call == number)) {
        same(e->name, at_the_end.answer.number, BAFIROLEN_REFUSED_NO_ENCRYPTED_DATA_KEY);
    } else if (!bare && !(finds && (shape.pairs == 0 || find_key == absent))) {
        same(e->name, at_the_end.answer.number, BAFIROLEN_ACCEPTED);
        if (writes || measures) {
            same(e->name, at_the_end.answer.written.length, body.length);
        }
    }
}

/* first further up: when memset and memcpy are called for the first time, the dynamic linker takes room too, to bind them */
static void run(struct export *e)
{
    static const char *const orders[] = {"ascending", "descending", "shuffled"};
    static const char *const faults[] = {"", ", the first key again", ", a bad value", ", 65,535 claimed"};
    size_t most;
    snprintf(overrun, sizeof overrun, "%s: %u %s pairs%s, %u keys: takes more stack than the %lu bytes promised\n", e->name,
             shape.pairs, orders[shape.order], faults[shape.fault], shape.keys, (unsigned long)e->promised);
    lent = lend(&further_up);
    e->call();
    lent = lend(&at_the_end);
    most = taken(e->call, e->promised);
    e->most = most > e->most ? most : e->most;
    same_bytes(e->name, &at_the_end.answer, &further_up.answer, sizeof at_the_end.answer);
    same_bytes(e->name, at_the_end.pairs, further_up.pairs, sizeof *at_the_end.pairs * pairs_len);
    same_bytes(e->name, at_the_end.keys, further_up.keys, sizeof *at_the_end.keys * keys_len);
    same_bytes(e->name, at_the_end.frames, further_up.frames, sizeof *at_the_end.frames * frames_len);
    same_bytes(e->name, at_the_end.out, further_up.out, out_len);
    accepted(e);
}

/* every export on a body, with a key to find that it has and one that it has not, and on as many frames as it has parts */
static void run_all(struct shape s)
{
    size_t i;
    shape = s;
    build(s);
    build_frames(1 + s.pairs + s.keys, 1 + s.pairs % 5, s.fault);
    pairs_len = 4 * s.pairs;
    keys_len = 6 * s.keys;
    frames_len = 6 * (1 + s.pairs + s.keys);
    out_len = frames.length > 2 * body.length + 28 ? frames.length : 2 * body.length + 28;
    for (i = 0; i < COUNT(exports); i++) {
        find_key = body.bytes + body.last_key;
        run(&exports[i]);
        if (exports[i].call == find || exports[i].call == copy) {
            find_key = absent;
            run(&exports[i]);
        }
    }
}

static void *run_bodies(void *unused)
{
    /* on each side of the sizes that the index of seen keys has, 32, 512 and 1,024, and about as many pairs as fit; bodies without
     * a key; and as many frames as are written, one more than there are pairs and keys */
    static const uint32_t pairs_of[] = {0, 1, 2, 32, 33, 512, 513, 1024, 1025};
    static const struct shape large[] = {{1, MOST_PAIRS, 60, SHUFFLED, NO_FAULT, BAFIROLEN_TODAY},
                                         {2, MOST_PAIRS, 1, DESCENDING, KEY_AGAIN, BAFIROLEN_TODAY},
                                         {2, MOST_PAIRS, 0, DESCENDING, KEY_AGAIN, BAFIROLEN_TODAY},
                                         {1, MOST_PAIRS, 0, SHUFFLED, NO_FAULT, BAFIROLEN_TODAY},
                                         {2, 1024, 0, SHUFFLED, NO_FAULT, BAFIROLEN_TODAY},
                                         {1, 1, 0, ASCENDING, NO_FAULT, BAFIROLEN_TODAY},
                                         {2, 0, 0, ASCENDING, NO_FAULT, BAFIROLEN_TODAY},
                                         {1, 0, 0, ASCENDING, NO_FAULT, BAFIROLEN_OLD},
                                         {1, 1, MOST_KEYS, ASCENDING, NO_FAULT, BAFIROLEN_TODAY},
                                         {2, 4, MOST_KEYS - 5, ASCENDING, NO_FAULT, BAFIROLEN_TODAY},
                                         {1, 4, MOST_KEYS - 5, ASCENDING, BAD_VALUE, BAFIROLEN_TODAY},
                                         {2, MOST_PAIRS, MOST_KEYS, ASCENDING, NO_FAULT, BAFIROLEN_TODAY},
                                         {1, 1023, 682, SHUFFLED, NO_FAULT, BAFIROLEN_TODAY},
                                         {2, 1024, 682, ASCENDING, NO_FAULT, BAFIROLEN_TODAY},
                                         {2, 0, 2, ASCENDING, NO_FAULT, BAFIROLEN_OLD}};
    struct shape s;
    size_t i;
    handle_faults();
    for (i = 0; i < COUNT(pairs_of); i++) {
        for (s.order = ASCENDING; s.order <= SHUFFLED; s.order++) {
            for (s.fault = NO_FAULT; s.fault <= MANY_CLAIMED; s.fault++) {
                s.pairs = pairs_of[i];
                s.version = 1 + (s.pairs + s.order) % 2;
                s.keys = 1 + s.pairs % 3;
                /* without pairs all orders are the same, and one of them is of the old form */
                s.form = s.pairs == 0 && s.order == SHUFFLED ? BAFIROLEN_OLD : BAFIROLEN_TODAY;
                run_all(s);
            }
        }
    }
    for (i = 0; i < COUNT(large); i++) {
        run_all(large[i]);
    }
    return unused;
}

int main(void)
{
    pthread_t thread;
    pthread_attr_t stack;
    size_t i;
    uint8_t *guard = mmap(NULL, GUARD + LOWER + UPPER, PROT_READ | PROT_WRITE, MAP_PRIVATE | MAP_ANONYMOUS, -1, 0);
    make_sure("mmap", guard != MAP_FAILED && mprotect(guard, GUARD, PROT_NONE) == 0);
    lowest = guard + GUARD;
    make_sure("a thread", pthread_attr_init(&stack) == 0 && pthread_attr_setstack(&stack, lowest, LOWER + UPPER) == 0
                              && pthread_create(&thread, &stack, run_bodies, NULL) == 0 && pthread_join(thread, NULL) == 0);
    for (i = 0; i < COUNT(exports); i++) {
        printf("%s: %lu of %lu bytes\n", exports[i].name, (unsigned long)exports[i].most, (unsigned long)exports[i].promised);
    }
    return compared();
}
