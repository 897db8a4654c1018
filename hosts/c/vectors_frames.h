/* For the host in C++: frames behind the record of H, read, gone through, measured and written again. */
#ifndef VECTORS_FRAMES_H
#define VECTORS_FRAMES_H

#include "vectors.h"

namespace {

void put(Bytes &message, uint32_t number)
{
    for (int shift = 24; shift >= 0; shift -= 8) {
        message.push_back(uint8_t(number >> shift));
    }
}

/* frames of 4 bytes that stand from 86 on, from the table that they were read into; without a table there is none */
void frames_again(const Bytes &message, const Table &table)
{
    const BafirolenWritten n = bafirolen_frames_len(4, message.data(), message.size(), table.data(), table.size());
    same("the frames' length", n.number == 0 && n.position == 0 && n.length == message.size() - 86, true);
    Bytes out(n.length);
    const BafirolenWritten w =
        bafirolen_write_frames(4, message.data(), message.size(), table.data(), table.size(), out.data(), out.size());
    same("the frames written", w.number == 0 && w.position == 0 && w.length == n.length, true);
    same("their bytes", out, Bytes(message.begin() + 86, message.end()));
    const BafirolenWritten none = bafirolen_write_frames(4, message.data(), message.size(), nullptr, 0, out.data(), out.size());
    same("no frame", none.number == BAFIROLEN_REFUSED_NO_FRAME && none.position == 0 && none.length == 0, true);
    same("its bytes", out, Bytes(message.begin() + 86, message.end()));
}

/* three frames of 4 bytes behind the record of H, the final one empty; the table is as long as any of these bytes could need */
void frames()
{
    Bytes message = H;
    message.resize(H.size() + 28);
    for (uint32_t number = 1; number <= 3; number++) {
        if (number == 3) {
            put(message, 0xFFFFFFFFu);
        }
        put(message, number);
        message.insert(message.end(), BAFIROLEN_IV_LEN, uint8_t(0xA0 + number));
        put(message, number == 3 ? 0 : 0x61626300 + number);
        message.insert(message.end(), BAFIROLEN_TAG_LEN, uint8_t(0xB0 + number));
    }
    Table table(bafirolen_frame_table_len(message.size() - 86, 4));
    same("the table's length", table.size(), 6u * 4);
    const BafirolenSection s = bafirolen_read_frames(message.data(), message.size(), 86, 4, table.data(), table.size());
    same("frames", s.number == 0 && s.position == 0 && s.count == 3, true);
    same("the frames' tail", s.tail, message.size());
    std::vector<std::string> contents;
    for (size_t i = 0; i < s.count; i++) {
        contents.push_back(part(message, &table[BAFIROLEN_NUMBERS_PER_FRAME * i + 2]));
        same("an IV", part(message, &table[BAFIROLEN_NUMBERS_PER_FRAME * i]), std::string(12, char(0xA1 + i)));
        same("a tag", part(message, &table[BAFIROLEN_NUMBERS_PER_FRAME * i + 4]), std::string(16, char(0xB1 + i)));
    }
    same("the contents", contents, std::vector<std::string>{"abc\1", "abc\2", ""});
    table.resize(BAFIROLEN_NUMBERS_PER_FRAME * s.count);
    frames_again(message, table);
    const BafirolenSection none = bafirolen_read_frames(nullptr, 0, 0, 0, nullptr, 0);
    same("no frame length", none.number == BAFIROLEN_REFUSED_FRAME_LENGTH && none.position == 0 && none.tail == 0, true);
}

} // namespace

#endif
