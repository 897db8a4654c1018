/* The commitment policies as numbers, and what each reads and writes. */
#ifndef POLICIES_H
#define POLICIES_H

#include "compare.h"

/* by version, 1 first; numbers without a name stand for the last policy, and some of these have another one in their lowest bits */
static const struct policy {
    uint32_t number;
    int reads[2], writes[2];
} policies[] = {{BAFIROLEN_NO_POLICY, {1, 1}, {1, 1}},
                {BAFIROLEN_FORBID_ENCRYPT_ALLOW_DECRYPT, {1, 1}, {1, 0}},
                {BAFIROLEN_REQUIRE_ENCRYPT_ALLOW_DECRYPT, {1, 1}, {0, 1}},
                {BAFIROLEN_REQUIRE_ENCRYPT_REQUIRE_DECRYPT, {0, 1}, {0, 1}},
                {4, {0, 1}, {0, 1}},
                {256, {0, 1}, {0, 1}},
                {0x80000001u, {0, 1}, {0, 1}},
                {0xFFFFFFFFu, {0, 1}, {0, 1}}};

/* the version that a suite is of, 0 where there is no such suite */
static inline uint32_t version_of(uint32_t suite)
{
    static const uint32_t suites[] = {0x0014, 0x0046, 0x0078, 0x0114, 0x0146, 0x0178, 0x0214, 0x0346, 0x0378, 0x0478, 0x0578};
    size_t i;
    for (i = 0; i < COUNT(suites); i++) {
        if (suites[i] == suite) {
            return i < 9 ? 1 : 2;
        }
    }
    return 0;
}

/* what a suite is refused by in a version that a policy allows, or forbids; 0 where it is not refused */
static inline uint64_t suite_refused(uint32_t suite, uint32_t version, int allowed)
{
    const uint32_t of = version_of(suite);
    return of == 0       ? BAFIROLEN_REFUSED_UNKNOWN_SUITE
         : of != version ? BAFIROLEN_REFUSED_SUITE_OF_OTHER_VERSION
         : !allowed      ? BAFIROLEN_REFUSED_FORBIDDEN_BY_POLICY
                         : BAFIROLEN_ACCEPTED;
}

/* every suite up to those that there are, and some of the others */
static inline uint32_t next_suite(uint32_t suite)
{
    return suite + (suite < 0x0600 ? 1 : 251);
}

#endif
