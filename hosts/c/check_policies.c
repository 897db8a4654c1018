/*
 * A host in C: bodies read under a commitment policy. What the policy does not read is refused by 39, behind whatever is refused of
 * version, type and suite, and before a byte of the message ID is looked at; all else is answered and left as by the reader without
 * a policy. Each part is an allocation of exactly the bytes that are lent. check_policies_written.c has what is written. Writes
 * `compared N cases`; a difference is written to standard error, and the exit status is 1.
 *
 *     tools/archives
 *     gcc -std=c99 -O2 -Wall -Wextra -Iinclude hosts/c/check_policies.c target/staticlib/libbafirolen_c.a -o target/check_policies
 *     valgrind --error-exitcode=1 target/check_policies
 */
#include "lending.h"
#include "policies.h"

static const uint32_t readers[] = {BAFIROLEN_EITHER, BAFIROLEN_V1_ONLY, BAFIROLEN_V2_ONLY, 3};
static const uint32_t modes[] = {BAFIROLEN_TOLERANT, BAFIROLEN_STRICT};

/* what is asked of a message beside its policy: a reader, a maximum, and tables of so many numbers */
struct asked {
    uint32_t which, mode, has_max;
    uint64_t max;
    size_t numbers;
};

static BafirolenBody read_under(uint32_t policy, const uint8_t *m, size_t n, uint64_t start, struct asked a, uint32_t *p,
                                uint32_t *k)
{
    return bafirolen_read_header_body_under_policy(m, n, start, a.which, a.mode, a.has_max, a.max, policy, p, a.numbers, k,
                                                   a.numbers);
}

/* the version at the front of n bytes, where nothing is refused of it, of the type and of the suite; else 0 */
static uint32_t opened(const uint8_t *m, size_t n, uint32_t which)
{
    const uint32_t version = n > 0 && (m[0] == 1 || m[0] == 2) ? m[0] : 0;
    const size_t suite = version == 1 ? 2 : 1;
    if (version == 0 || which == 3 - version || n < suite + 2 || (version == 1 && m[1] != BAFIROLEN_V1_MESSAGE_TYPE)) {
        return 0;
    }
    return version_of(m[suite] * 256u + m[suite + 1]) == version ? version : 0;
}

/* under a policy, beside what is answered without one */
static void read_as(const char *what, const struct policy *policy, const uint8_t *m, size_t n, uint64_t start, struct asked a)
{
    static const uint64_t forbidden[BODY_FIELDS] = {BAFIROLEN_REFUSED_FORBIDDEN_BY_POLICY};
    const uint32_t version = start < n ? opened(m + start, n - start, a.which) : 0;
    const size_t size = a.numbers * sizeof *pairs;
    uint32_t *p, *k;
    BafirolenBody got, without;
    fresh();
    p = lend(fresh_numbers, size);
    k = lend(fresh_numbers, size);
    got = read_under(policy->number, lend_const(m, n), n, start, a, p, k);
    if (version != 0 && !policy->reads[version - 1]) {
        body_is(what, got, forbidden);
    } else {
        without = bafirolen_read_header_body(m, n, start, a.which, a.mode, a.has_max, a.max, pairs, a.numbers, keys, a.numbers);
        clear_behind_numbers(&got);
        clear_behind_numbers(&without);
        same_bytes(what, &got, &without, sizeof got);
    }
    same_bytes(what, p, pairs, size);
    same_bytes(what, k, keys, size);
    let_go();
}

/* by every reader, with no maximum and one of 0, with tables of nothing and of plenty */
static void read_by_all(const char *what, const struct policy *policy, const uint8_t *m, size_t n, uint64_t start)
{
    struct asked a;
    size_t i, k;
    for (i = 0; i < COUNT(readers); i++) {
        for (k = 0; k < COUNT(modes); k++) {
            a.which = readers[i];
            a.mode = modes[k];
            a.has_max = BAFIROLEN_NO_MAX;
            a.max = 0;
            a.numbers = 12;
            read_as(what, policy, m, n, start, a);
            a.numbers = 0;
            read_as(what, policy, m, n, start, a);
            a.has_max = BAFIROLEN_AT_MOST;
            read_as(what, policy, m, n, start, a);
        }
    }
}

/* every cut of a header, at the message's front and behind other bytes */
static void cuts(const char *what, const uint8_t *header, size_t length)
{
    uint8_t m[BYTES];
    size_t start, n, i;
    for (start = 0; start <= 3; start += 3) {
        memset(m, KEPT, sizeof m);
        memcpy(m + start, header, length);
        for (n = 0; n <= length; n++) {
            for (i = 0; i < COUNT(policies); i++) {
                read_by_all(what, &policies[i], m, start + n, start);
            }
        }
    }
}

/* every byte of a header replaced: what is refused of version, type and suite comes first, and nothing behind them does */
static void replaced(const uint8_t *header, size_t length)
{
    static const uint8_t bytes[] = {0x00, 0x01, 0x02, 0x03, 0x05, 0x78, 0x80, 0xFF};
    static const struct asked a = {BAFIROLEN_EITHER, BAFIROLEN_TOLERANT, BAFIROLEN_NO_MAX, 0, 12};
    uint8_t m[BYTES];
    size_t place, i, k;
    for (place = 0; place < length; place++) {
        for (i = 0; i < COUNT(bytes); i++) {
            memcpy(m, header, length);
            m[place] = bytes[i];
            for (k = 0; k < COUNT(policies); k++) {
                read_as("a byte replaced", &policies[k], m, length, 0, a);
            }
        }
    }
}

/* a message that ends right behind its suite: 6, 7 or 39, and 2 where nothing is refused */
static void suites(uint32_t version)
{
    static const struct asked a = {BAFIROLEN_EITHER, BAFIROLEN_TOLERANT, BAFIROLEN_NO_MAX, 0, 0};
    uint8_t m[4] = {(uint8_t)version, BAFIROLEN_V1_MESSAGE_TYPE};
    const size_t at = version == 1 ? 2 : 1;
    uint32_t suite;
    size_t i;
    for (suite = 0; suite <= 0xFFFF; suite = next_suite(suite)) {
        m[at] = (uint8_t)(suite >> 8);
        m[at + 1] = (uint8_t)suite;
        for (i = 0; i < COUNT(policies); i++) {
            const uint64_t number = suite_refused(suite, version, policies[i].reads[version - 1]);
            const uint64_t cut[BODY_FIELDS] = {BAFIROLEN_REFUSED_SHORTAGE, version == 1 ? 20 : 35}, refused[BODY_FIELDS] = {number};
            body_is("a suite", read_under(policies[i].number, m, at + 2, 0, a, NULL, NULL),
                    number == BAFIROLEN_ACCEPTED ? cut : refused);
        }
    }
}

/* one that is read, to all its fields; one that is not asked for is refused by 4; and a start that is too large by 1 */
static void numbers(void)
{
    static const uint64_t first[BODY_FIELDS] = {0, 0, 1, 0x80, 0x0178, 2, 12, 4096, BAFIROLEN_TODAY, 4, 16, 1, 1, 0, 0, 58};
    static const uint64_t second[BODY_FIELDS] = {0, 0, 2, 0, 0x0578, 2, 0, 4096, BAFIROLEN_TODAY, 3, 32, 1, 1, 68, 32, 100};
    static const uint64_t forbidden[BODY_FIELDS] = {BAFIROLEN_REFUSED_FORBIDDEN_BY_POLICY};
    static const uint64_t other[BODY_FIELDS] = {BAFIROLEN_REFUSED_OTHER_VERSION}, far[BODY_FIELDS] = {1};
    static const struct asked either = {BAFIROLEN_EITHER, BAFIROLEN_STRICT, BAFIROLEN_AT_MOST, 1, 6};
    struct asked one = either;
    uint8_t m[BYTES];
    const size_t n = header_of(m, 2, H + 20, 14, H + 34, 14);
    size_t i;
    for (i = 0; i < COUNT(policies); i++) {
        const uint32_t policy = policies[i].number;
        fresh();
        body_is("version 1", read_under(policy, H, 58, 0, either, pairs, keys), policies[i].reads[0] ? first : forbidden);
        table_is("version 1", pairs, H_pairs, policies[i].reads[0] ? 4 : 0);
        table_is("version 1", keys, H_keys, policies[i].reads[0] ? 6 : 0);
        fresh();
        one.which = BAFIROLEN_V2_ONLY;
        body_is("version 1, 2 asked for", read_under(policy, H, 58, 0, one, pairs, keys), other);
        one.which = BAFIROLEN_V1_ONLY;
        body_is("version 2, 1 asked for", read_under(policy, m, n, 0, one, pairs, keys), other);
        body_is("a start of 33 bits", read_under(policy, H, 58, 4294967296u, either, pairs, keys), far);
        table_is("nothing read", pairs, fresh_numbers, 0);
        table_is("nothing read", keys, fresh_numbers, 0);
        body_is("version 2", read_under(policy, m, n, 0, either, pairs, keys), second);
        same("its tail", n, 100);
    }
}

int main(void)
{
    uint8_t m[BYTES];
    uint32_t version, form;
    for (version = 1; version <= 2; version++) {
        size_t n = header_of(m, version, H + 20, 14, H + 34, 14);
        cuts("a header", m, n);
        replaced(m, n);
        for (form = BAFIROLEN_TODAY; form <= BAFIROLEN_OLD; form++) {
            n = bare_header(m, version, form);
            cuts("a header without pairs", m, n);
            replaced(m, n);
        }
        suites(version);
    }
    numbers();
    return compared();
}
