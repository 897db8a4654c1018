/* For the host in C++: what is lent, as vectors; comparing; and header H. */
#ifndef VECTORS_H
#define VECTORS_H

#include "bafirolen.h"

#include <iostream>
#include <string>
#include <vector>

namespace {

using Bytes = std::vector<uint8_t>;
using Table = std::vector<uint32_t>;

unsigned long cases, differences;

template <typename T, typename U> void same(const char *what, const T &got, const U &want)
{
    cases++;
    if (!(got == want)) {
        differences++;
        std::cerr << what << " differs\n";
    }
}

const Bytes H = {0x01, 0x80, 0x01, 0x78, 0x00, 0x01, 0x02, 0x03, 0x04, 0x05, 0x06, 0x07, 0x08, 0x09, 0x0A,
                 0x0B, 0x0C, 0x0D, 0x0E, 0x0F, 0x00, 0x0C, 0x00, 0x01, 0x00, 0x04, 0x6C, 0x61, 0x6E, 0x67,
                 0x00, 0x02, 0x63, 0x79, 0x00, 0x01, 0x00, 0x02, 0x70, 0x31, 0x00, 0x01, 0x61, 0x00, 0x03,
                 0xAA, 0xBB, 0xCC, 0x02, 0x00, 0x00, 0x00, 0x00, 0x0C, 0x00, 0x00, 0x10, 0x00};

BafirolenBody read(const Bytes &message, Table &pairs, Table &keys, BafirolenMode mode = BAFIROLEN_STRICT)
{
    return bafirolen_read_header_body(message.data(), message.size(), 0, BAFIROLEN_EITHER, mode, BAFIROLEN_NO_MAX, 0,
                                      pairs.data(), pairs.size(), keys.data(), keys.size());
}

std::string part(const Bytes &message, const uint32_t *place)
{
    return std::string(message.begin() + place[0], message.begin() + place[0] + place[1]);
}

} // namespace

#endif
