/*
 * Each export that bafirolen.h gives BAFIROLEN_STACK_KEYS as the first call of a process, with just so many bytes of stack left, below
 * which no byte can be touched. Where a program binds memcpy and memset at their first call, the dynamic linker takes more than that
 * for it, on the stack of whoever calls them: these exports call neither. `stack` calls every export further up first, and so does not
 * see it. Writes `compared N cases`; a difference is written to standard error, and the exit status is 1. It runs without valgrind.
 *
 *     tools/archives
 *     gcc -std=c99 -O2 -Wall -Wextra -Iinclude -Wl,-z,lazy hosts/c/first_call.c target/staticlib/libbafirolen_c.a -o target/first_call
 */
#define _GNU_SOURCE
#include "compare.h"

#include <stdlib.h>
#include <sys/mman.h>
#include <sys/wait.h>
#include <ucontext.h>
#include <unistd.h>

#define GUARD 1048576

/* Nothing is copied to make these: memcpy is not called before the export is. */
static const uint8_t text[400];
static const uint32_t two_frames[] = {0, 12, 20, 64, 90, 16, 100, 12, 120, 64, 190, 16};
static const uint32_t one_key[] = {0, 9, 10, 30, 50, 100};
static const uint8_t last_frame[40] = {0xFF, 0xFF, 0xFF, 0xFF, 0, 0, 0, 1};
static const uint8_t empty_key[8] = {0, 1};
static uint8_t written[400];
static uint32_t places[6];
static uint64_t answer;

static void version(void)
{
    answer = bafirolen_version();
}

static void read_keys(void)
{
    answer = bafirolen_read_encrypted_data_keys_section(empty_key, sizeof empty_key, 0, BAFIROLEN_NO_MAX, 0, places, COUNT(places)).tail;
}

static void write_keys(void)
{
    answer = bafirolen_write_encrypted_data_keys_section(text, sizeof text, one_key, COUNT(one_key), written, sizeof written).length;
}

static void read_record(void)
{
    answer = bafirolen_read_header_auth_tag(text, sizeof text, 0, 0x0178).tail;
}

static void write_record(void)
{
    answer = bafirolen_write_header_auth_tag(0x0178, text, 12, text, 16, written, sizeof written).length;
}

static void read_frames(void)
{
    answer = bafirolen_read_frames(last_frame, sizeof last_frame, 0, 64, places, COUNT(places)).tail;
}

static void write_frames(void)
{
    answer = bafirolen_write_frames(64, text, sizeof text, two_frames, COUNT(two_frames), written, sizeof written).length;
}

static void frames_length(void)
{
    answer = bafirolen_frames_len(64, text, sizeof text, two_frames, COUNT(two_frames)).length;
}

/* what each answers: a length or a tail, by the lengths above */
static const struct export {
    const char *name;
    void (*call)(void);
    uint64_t wanted;
} exports[] = {{"bafirolen_version", version, BAFIROLEN_VERSION},
               {"bafirolen_read_encrypted_data_keys_section", read_keys, sizeof empty_key},
               {"bafirolen_write_encrypted_data_keys_section", write_keys, 2 + 2 + 9 + 2 + 30 + 2 + 100},
               {"bafirolen_read_header_auth_tag", read_record, 12 + 16},
               {"bafirolen_write_header_auth_tag", write_record, 12 + 16},
               {"bafirolen_read_frames", read_frames, sizeof last_frame},
               {"bafirolen_write_frames", write_frames, 4 + 12 + 64 + 16 + 4 + 4 + 12 + 4 + 64 + 16},
               {"bafirolen_frames_len", frames_length, 4 + 12 + 64 + 16 + 4 + 4 + 12 + 4 + 64 + 16}};

static void make_sure(const char *what, int done)
{
    if (!done) {
        perror(what);
        exit(1);
    }
}

/* in the child: 0 where the export answers what is wanted; a touch of the guard ends it by a signal */
static int call_first(const struct export *e)
{
    static ucontext_t here, there;
    uint8_t *guard = mmap(NULL, GUARD + BAFIROLEN_STACK_KEYS, PROT_READ | PROT_WRITE, MAP_PRIVATE | MAP_ANONYMOUS, -1, 0);
    if (guard == MAP_FAILED || mprotect(guard, GUARD, PROT_NONE) != 0 || getcontext(&there) != 0) {
        return 2;
    }
    there.uc_stack.ss_sp = guard + GUARD;
    there.uc_stack.ss_size = BAFIROLEN_STACK_KEYS;
    there.uc_link = &here;
    makecontext(&there, e->call, 0);
    return swapcontext(&here, &there) != 0 ? 2 : answer != e->wanted;
}

int main(void)
{
    size_t i;
    for (i = 0; i < COUNT(exports); i++) {
        int status = 0;
        const pid_t child = fork();
        make_sure("fork", child >= 0);
        if (child == 0) {
            _exit(call_first(&exports[i]));
        }
        make_sure("waitpid", waitpid(child, &status, 0) == child);
        same(exports[i].name, (uint64_t)status, 0);
    }
    return compared();
}
