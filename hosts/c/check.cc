/*
 * A host in C++: bafirolen.h is included twice, what is empty is lent as an empty vector has it; header H is read, its pairs and
 * keys are gone through, it is measured and written again, as is one with an empty context in the old form, and what is
 * authenticated of its context is written alone; without its key it is refused, and under a policy it is read, measured and
 * written, or refused; it is fetched from a stream; as a draft it is given another key, and its own is dropped, and it is reissued;
 * frames are read, gone through, measured and written again. Writes `compared N cases`; a difference is written to standard error,
 * and the exit status is 1.
 *
 *     tools/archives
 *     g++ -std=c++11 -O2 -Wall -Wextra -Wpedantic -Iinclude hosts/c/check.cc target/staticlib/libbafirolen_c.a -o target/check
 */
#include "bafirolen.h"
#include "bafirolen.h"
#include "vectors.h"
#include "vectors_frames.h"

#include <map>
#include <sstream>

namespace {

/* the tables are read with room for any header, and cut to what this one has, since a writer takes all of what it is lent */
void read_and_write_again()
{
    Table pairs(BAFIROLEN_LARGEST_PAIR_TABLE), keys(BAFIROLEN_LARGEST_KEY_TABLE);
    const BafirolenBody b = read(H, pairs, keys);
    same("the number", b.number, uint64_t(BAFIROLEN_ACCEPTED));
    same("the position", b.position, 0u);
    same("the tail", b.tail, H.size());
    same("the context's start", bafirolen_context_start(b), 20u);
    pairs.resize(BAFIROLEN_NUMBERS_PER_PAIR * b.pairCount);
    keys.resize(BAFIROLEN_NUMBERS_PER_KEY * b.keyCount);
    std::map<std::string, std::string> context;
    for (size_t i = 0; i < pairs.size(); i += BAFIROLEN_NUMBERS_PER_PAIR) {
        context[part(H, &pairs[i])] = part(H, &pairs[i + 2]);
    }
    same("the context", context, std::map<std::string, std::string>{{"lang", "cy"}});
    std::vector<std::string> parts;
    for (size_t i = 0; i < keys.size(); i += 2) {
        parts.push_back(part(H, &keys[i]));
    }
    same("the keys", parts, std::vector<std::string>{"p1", "a", "\xAA\xBB\xCC"});
    const Bytes id(H.begin() + long(b.messageIdStart), H.begin() + long(b.messageIdStart + b.messageIdLen)), none;
    const BafirolenWritten n =
        bafirolen_header_body_len(b.numbers, id.data(), id.size(), none.data(), none.size(), H.data(), H.size(), pairs.data(),
                                  pairs.size(), keys.data(), keys.size());
    same("the length", n.number == 0 && n.position == 0 && n.length == H.size(), true);
    Bytes out(n.length);
    const BafirolenWritten w =
        bafirolen_write_header_body(b.numbers, id.data(), id.size(), none.data(), none.size(), H.data(), H.size(), pairs.data(),
                                    pairs.size(), keys.data(), keys.size(), out.data(), out.size());
    same("what was written", w.number == 0 && w.position == 0 && w.length == H.size(), true);
    same("its bytes", out, H);
}

/* H without its pair, in the old form: the tables are exact, and the one of pairs is empty */
void old_form_again()
{
    Bytes old(H.begin(), H.begin() + 20);
    const Bytes empty = {0, 2, 0, 0}, none;
    old.insert(old.end(), empty.begin(), empty.end());
    old.insert(old.end(), H.begin() + 34, H.end());
    Table pairs, keys(BAFIROLEN_NUMBERS_PER_KEY);
    const BafirolenBody refused = read(old, pairs, keys);
    same("the old form, strict", refused.number, uint64_t(BAFIROLEN_REFUSED_OLD_EMPTY_CONTEXT));
    same("no form", refused.numbers.form, uint32_t(BAFIROLEN_TODAY));
    const BafirolenBody b = read(old, pairs, keys, BAFIROLEN_TOLERANT);
    same("the old form", b.number == 0 && b.tail == 48 && b.pairCount == 0 && b.keyCount == 1, true);
    same("its mark", b.numbers.form, uint32_t(BAFIROLEN_OLD));
    const BafirolenWritten n =
        bafirolen_header_body_len(b.numbers, &old[b.messageIdStart], b.messageIdLen, none.data(), none.size(), old.data(),
                                  old.size(), pairs.data(), pairs.size(), keys.data(), keys.size());
    same("the old form's length", n.number == 0 && n.position == 0 && n.length == 48, true);
    Bytes out(n.length);
    const BafirolenWritten w =
        bafirolen_write_header_body(b.numbers, &old[b.messageIdStart], b.messageIdLen, none.data(), none.size(), old.data(),
                                    old.size(), pairs.data(), pairs.size(), keys.data(), keys.size(), out.data(), out.size());
    same("the old form written", w.number == 0 && w.position == 0 && w.length == 48, true);
    same("its bytes", out, old);
}

/* H without its key is refused, and nothing is written from a table that is empty */
void no_key()
{
    Bytes keyless(H.begin(), H.begin() + 34), none;
    keyless.insert(keyless.end(), {0, 0});
    keyless.insert(keyless.end(), H.begin() + 48, H.end());
    Table pairs(BAFIROLEN_NUMBERS_PER_PAIR), keys;
    const BafirolenBody b = read(keyless, pairs, keys);
    same("no key", b.number == BAFIROLEN_REFUSED_NO_ENCRYPTED_DATA_KEY && b.position == 0 && b.tail == 0, true);
    same("no pair of it", pairs, Table(BAFIROLEN_NUMBERS_PER_PAIR));
    Bytes out(46, 0xEE);
    BafirolenWritten w = bafirolen_write_encrypted_data_keys_section(none.data(), 0, keys.data(), 0, out.data(), out.size());
    same("no key to write", w.number == BAFIROLEN_REFUSED_NO_ENCRYPTED_DATA_KEY && w.position == 0 && w.length == 0, true);
    const BafirolenNumbers n = bafirolen_v1_numbers(0x0178, BAFIROLEN_FRAMED, 4096);
    w = bafirolen_write_header_body(n, &H[4], 16, none.data(), 0, none.data(), 0, nullptr, 0, keys.data(), 0, out.data(),
                                    out.size());
    same("a body without a key", w.number == BAFIROLEN_REFUSED_NO_ENCRYPTED_DATA_KEY && w.position == 0 && w.length == 0, true);
    same("nothing is written", out, Bytes(46, 0xEE));
}

/* H under each policy: what it is refused by when it is read, and when it is measured and written again */
void policies()
{
    const std::map<BafirolenPolicy, std::vector<uint64_t>> refusals = {
        {BAFIROLEN_NO_POLICY, {0, 0}},
        {BAFIROLEN_FORBID_ENCRYPT_ALLOW_DECRYPT, {0, 0}},
        {BAFIROLEN_REQUIRE_ENCRYPT_ALLOW_DECRYPT, {0, BAFIROLEN_REFUSED_FORBIDDEN_BY_POLICY}},
        {BAFIROLEN_REQUIRE_ENCRYPT_REQUIRE_DECRYPT,
         {BAFIROLEN_REFUSED_FORBIDDEN_BY_POLICY, BAFIROLEN_REFUSED_FORBIDDEN_BY_POLICY}}};
    const BafirolenNumbers numbers = bafirolen_v1_numbers(0x0178, BAFIROLEN_FRAMED, 4096);
    const Table pairs = {26, 4, 32, 2}, keys = {38, 2, 42, 1, 45, 3};
    for (const auto &row : refusals) {
        const bool reads = row.second[0] == 0, writes = row.second[1] == 0;
        Table p(4), k(6);
        const BafirolenBody b = bafirolen_read_header_body_under_policy(H.data(), H.size(), 0, BAFIROLEN_V1_ONLY, BAFIROLEN_STRICT,
                                                                        BAFIROLEN_AT_MOST, 1, row.first, p.data(), p.size(),
                                                                        k.data(), k.size());
        same("a policy in reading", b.number == row.second[0] && b.position == 0 && b.tail == (reads ? 58 : 0), true);
        same("its tables", p == (reads ? pairs : Table(4)) && k == (reads ? keys : Table(6)), true);
        const BafirolenWritten n = bafirolen_header_body_len_under_policy(numbers, row.first, &H[4], 16, nullptr, 0, H.data(),
                                                                          H.size(), pairs.data(), pairs.size(), keys.data(),
                                                                          keys.size());
        same("a policy in measuring", n.number == row.second[1] && n.position == 0 && n.length == (writes ? 58 : 0), true);
        Bytes out(58, 0xEE);
        const BafirolenWritten w = bafirolen_write_header_body_under_policy(numbers, row.first, &H[4], 16, nullptr, 0, H.data(),
                                                                            H.size(), pairs.data(), pairs.size(), keys.data(),
                                                                            keys.size(), out.data(), out.size());
        same("a policy in writing", w.number == n.number && w.position == 0 && w.length == n.length, true);
        same("its output", out, writes ? H : Bytes(58, 0xEE));
    }
}

/* H from a stream that goes on behind it, into a vector that is as long as what was wanted */
void fetched()
{
    std::istringstream stream(std::string(H.begin(), H.end()) + "behind");
    Table pairs(BAFIROLEN_NUMBERS_PER_PAIR), keys(BAFIROLEN_NUMBERS_PER_KEY);
    Bytes message;
    uint64_t rounds = 0;
    BafirolenBody b = read(message, pairs, keys);
    while (b.number == BAFIROLEN_REFUSED_SHORTAGE && stream) {
        const size_t held = message.size();
        message.resize(b.position);
        stream.read(reinterpret_cast<char *>(&message[held]), std::streamsize(b.position - held));
        rounds++;
        b = read(message, pairs, keys);
    }
    same("what was fetched", b.number == 0 && b.tail == H.size() && message == H, true);
    same("its rounds", rounds, BAFIROLEN_MOST_ROUNDS(b.keyCount));
    std::string behind;
    same("what is behind it", std::getline(stream, behind) && behind == "behind", true);
    same("the rounds of frames", BAFIROLEN_MOST_FRAME_ROUNDS(3), 14u);
}

/* H as a draft in a vector: its only key stays until there is another, and the vector grows and is cut with the draft */
void drafts()
{
    const Bytes gone = {'p', '1'}, id = {'p', '2'}, info, ciphertext = {0xDD, 0xEE};
    Bytes draft = H;
    BafirolenWritten w = bafirolen_drop_encrypted_data_keys(draft.data(), draft.size(), gone.data(), gone.size());
    same("the only key", w.number == BAFIROLEN_REFUSED_NO_KEY_REMAINS && w.position == 0 && w.length == 0, true);
    w = bafirolen_add_encrypted_data_key(draft.data(), draft.size(), id.data(), id.size(), info.data(), info.size(),
                                         ciphertext.data(), ciphertext.size());
    same("no room for a key", w.number == BAFIROLEN_REFUSED_OUTPUT_TOO_SHORT && w.position == 0 && w.length == 0, true);
    same("the draft as it was", draft, H);
    draft.resize(H.size() + 6 + id.size() + info.size() + ciphertext.size());
    w = bafirolen_add_encrypted_data_key(draft.data(), draft.size(), id.data(), id.size(), info.data(), info.size(),
                                         ciphertext.data(), ciphertext.size());
    same("a key added", w.number == 0 && w.position == 0 && w.length == draft.size(), true);
    w = bafirolen_drop_encrypted_data_keys(draft.data(), draft.size(), gone.data(), gone.size());
    same("a key dropped", w.number == 0 && w.position == 0 && w.length == 56, true);
    same("what is freed", Bytes(draft.begin() + 56, draft.end()), Bytes(12));
    draft.resize(w.length);
    Bytes want(H.begin(), H.begin() + 34);
    want.insert(want.end(), {0, 1, 0, 2, 'p', '2', 0, 0, 0, 2, 0xDD, 0xEE});
    want.insert(want.end(), H.begin() + 48, H.end());
    same("the mended draft", draft, want);
}

/* what an empty vector gives for a pointer may be null */
void empty_vectors()
{
    Bytes message, out;
    Table pairs, keys;
    BafirolenBody b = read(message, pairs, keys);
    same("no message", b.number == BAFIROLEN_REFUSED_SHORTAGE && b.position == 1 && b.tail == 0, true);
    b = read(H, pairs, keys);
    same("no pair table", b.number == BAFIROLEN_REFUSED_PAIR_TABLE_TOO_SHORT && b.position == 0 && b.tail == 0, true);
    const BafirolenPlace p = bafirolen_find_value(H.data(), H.size(), 20, message.data(), message.size());
    same("the empty key", p.number == BAFIROLEN_REFUSED_NOT_FOUND && p.position == 0 && p.start == 0 && p.len == 0, true);
    BafirolenWritten w = bafirolen_write_aad_section(message.data(), 0, pairs.data(), 0, out.data(), out.size());
    same("no room", w.number == BAFIROLEN_REFUSED_OUTPUT_TOO_SHORT && w.position == 0 && w.length == 0, true);
    out.resize(2, 0xEE);
    w = bafirolen_write_aad_section(message.data(), 0, pairs.data(), 0, out.data(), out.size());
    same("no pairs", w.number == 0 && w.position == 0 && w.length == 2, true);
    same("no pairs' bytes", out, Bytes(2));
    w = bafirolen_write_only_authenticated(H.data(), H.size(), 20, message.data(), 0, pairs.data(), 0, out.data(), out.size());
    same("no required key", w.number == 0 && w.position == 0 && w.length == 0, true);
}

/* into an output as long as the section, which is cut to what was written */
void only_authenticated()
{
    const std::string text = "speakerlang";
    const Table required = {0, 7, 7, 4};
    Bytes out(14);
    const BafirolenWritten w = bafirolen_write_only_authenticated(H.data(), H.size(), 20,
                                                                  reinterpret_cast<const uint8_t *>(text.data()), text.size(),
                                                                  required.data(), required.size(), out.data(), out.size());
    same("what is authenticated", w.number == 0 && w.position == 0 && w.length == 12, true);
    out.resize(w.length);
    same("its bytes", out, Bytes(H.begin() + 22, H.begin() + 34));
}

/* H as a draft of version 1, into a vector of just the length told; what that holds then is not reissued again */
void reissued()
{
    const Bytes id(32, 0x1D), data(32, 0xDA);
    const BafirolenWritten n =
        bafirolen_reissued_header_body_len(H.data(), H.size(), 0, 0x0478, id.data(), id.size(), data.data(), data.size());
    same("the length reissued", n.number == 0 && n.position == 0 && n.length == 100, true);
    Bytes out(n.length), want = {0x02, 0x04, 0x78};
    const BafirolenWritten w = bafirolen_reissue_header_body(H.data(), H.size(), 0, 0x0478, id.data(), id.size(), data.data(),
                                                             data.size(), out.data(), out.size());
    same("reissued", w.number == 0 && w.position == 0 && w.length == n.length, true);
    want.insert(want.end(), id.begin(), id.end());
    want.insert(want.end(), H.begin() + 20, H.begin() + 49);
    want.insert(want.end(), H.begin() + 54, H.end());
    want.insert(want.end(), data.begin(), data.end());
    same("the body of version 2", out, want);
    const BafirolenWritten again =
        bafirolen_reissued_header_body_len(out.data(), out.size(), 0, 0x0478, id.data(), id.size(), data.data(), data.size());
    same("again", again.number == BAFIROLEN_REFUSED_OTHER_VERSION && again.position == 0 && again.length == 0, true);
}

} // namespace

int main()
{
    same("the version of the declarations", bafirolen_version(), uint32_t(BAFIROLEN_VERSION));
    same("the text of a refusal", std::string(bafirolen_refusal_text(BAFIROLEN_REFUSED_NOT_FOUND)), "no pair has the key");
    same("the text of the last refusal", std::string(bafirolen_refusal_text(40)), "no encrypted data key would remain");
    same("the text of no refusal", std::string(bafirolen_refusal_text(41)), "unknown refusal");
    read_and_write_again();
    old_form_again();
    only_authenticated();
    no_key();
    policies();
    fetched();
    drafts();
    reissued();
    empty_vectors();
    frames();
    std::cout << "compared " << cases << " cases\n" << std::flush;
    return differences == 0 && std::cout ? 0 : 1;
}
