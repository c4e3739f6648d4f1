/* The tests of multihash.hpp: values and CIDs of each row of the test vectors. C++17 and C++20. Exits with status 1 at
 * the first error.
 *
 *   values FOLDER     crates/vectors/data */
#include "check.h"
#include <multihash.hpp>

#include <fstream>
#include <set>
#include <sstream>
#include <unordered_set>
#include <vector>

using multihash::cid;
using multihash::value;
using row = std::vector<std::string>;

static std::vector<row> rows_of(const std::string &path)
{
    std::vector<row> rows;
    std::ifstream file(path);
    for (std::string line, cell; std::getline(file, line);) {
        rows.emplace_back();
        for (std::istringstream cells(line); std::getline(cells, cell, '\t');) rows.back().push_back(cell);
    }
    CHECK(rows.size() > 1);
    rows.erase(rows.begin());
    return rows;
}

static std::string bytes_of(const std::string &digits)
{
    std::string bytes(digits.size() / 2, '\0');
    parse_hex(digits.c_str(), reinterpret_cast<uint8_t *>(bytes.data()), bytes.size());
    return bytes;
}

/* A value, and a CID, as columns have them. */
static std::string shown(const value &pair, std::string word = "pair ")
{
    const std::string digits = pair.hex().substr(2 * (pair.bytes().size() - pair.digest().size()));
    return word + std::to_string(pair.code()) + " " + (digits.empty() ? "-" : digits);
}

static std::string shown(const cid &found)
{
    return shown(found.multihash(),
                 "cid " + std::to_string(found.version()) + " " + std::to_string(found.codec()) + " ");
}

static void check_error(const multihash::error &error, const std::string &column)
{
    check_word(error.status(), column.substr(0, column.find(' ')).c_str());
    CHECK(error.is_incomplete() == (multihash_is_incomplete(error.status()) != 0));
}

/* A call returns, or throws, what a column says. */
template <typename Call> static void check(Call call, const std::string &column)
{
    try {
        CHECK(shown(call()) == column);
    } catch (const multihash::error &error) {
        check_error(error, column);
    }
}

static void check_verdict(const row &columns)
{
    const std::string bytes = bytes_of(columns[1]), &wanted = columns[2];
    const size_t limit = std::stoul(columns[0]);
    std::string_view rest = bytes;
    check([&] { return value::read(rest, limit); }, wanted);
    const size_t consumed = wanted.substr(0, 5) == "pair " ? std::stoul(columns[3]) : 0;
    CHECK(bytes.size() - rest.size() == consumed);
    if (limit >= MULTIHASH_DIGEST_MAX) check([&] { return value::decode(bytes); }, columns[4]);
    std::istringstream stream(bytes);
    if (bytes.empty()) {
        CHECK(!value::read(stream, limit).has_value());
        return;
    }
    check([&] { return value::read(stream, limit).value(); }, wanted);
    if (!stream.eof()) CHECK(stream.tellg() == static_cast<std::streamoff>(std::stoul(columns[3]))); // also at an error
}

static void check_value(const row &columns)
{
    const std::string digest = bytes_of(columns[3]);
    const uint64_t code = std::stoull(columns[2]);
    if (std::stoul(columns[1]) < digest.size() && digest.size() <= MULTIHASH_DIGEST_MAX) return;
    try {
        const value pair(code, digest);
        const std::string encoding = bytes_of(columns[4]);
        CHECK(pair.bytes() == encoding && value::decode(encoding) == pair && pair.digest() == digest);
        CHECK(value::from_hex(pair.hex()) == pair && value::from_hex(columns[4]) == pair && pair.hex() == columns[4]);
        CHECK(value(code, reinterpret_cast<const uint8_t *>(digest.data()), digest.size()) == pair);
        CHECK(value::decode(reinterpret_cast<const uint8_t *>(encoding.data()), encoding.size()) == pair);
    } catch (const multihash::error &error) {
        check_error(error, columns[4]);
    }
}

static void check_order(const row &columns)
{
    const value left(std::stoull(columns[1]), bytes_of(columns[2]));
    const value right(std::stoull(columns[3]), bytes_of(columns[4]));
    const int order = std::stoi(columns[5]);
    CHECK((left < right) == (order < 0) && (left > right) == (order > 0) && (left == right) == (order == 0));
    CHECK((left <= right) == (order <= 0) && (left >= right) == (order >= 0) && (left != right) == (order != 0));
    CHECK(std::set<value>({left, right}).size() == (order == 0 ? 1 : 2));
    CHECK(std::unordered_set<value>({left, right}).size() == (order == 0 ? 1 : 2));
}

/* A text, what it is, and the bytes. */
static void check_cid(const row &columns)
{
    static std::set<cid> sorted;
    static std::unordered_set<cid> hashed;
    static std::set<std::string> encodings;
    const std::string text = columns[0] == "-" ? "" : columns[0], bytes = bytes_of(columns[2]), more = bytes + "d";
    if (text.find('\\') != std::string::npos) return; // a byte that is written by its number
    check([&] { return cid::parse(text); }, columns[1]);
    if (columns[1].substr(0, 4) != "cid ") return;
    const cid found = cid::decode(bytes);
    std::string_view rest = more;
    CHECK(cid::read(rest) == found && rest == "d" && found.bytes() == bytes);
    CHECK(cid(found.version(), found.codec(), found.multihash()) == found && cid::parse(found.text()) == found);
    CHECK(found.text(found.version() == 0 ? 'z' : text[0]) == text);
    CHECK(found.text() == found.text(found.version() == 0 ? 'z' : 'b'));
    sorted.insert(found);
    hashed.insert(found);
    encodings.insert(bytes);
    CHECK(sorted.size() == encodings.size() && hashed.size() == encodings.size());
}

/* A call throws an error with that message. */
template <typename Call> static void check_message(Call call, const std::string &message)
{
    try {
        call();
        CHECK(false); // an error was expected
    } catch (const std::invalid_argument &error) {
        CHECK(error.what() == message);
    }
}

static void check_texts()
{
    check_message([] { value::from_hex("120"); }, "the text has an odd number of digits");
    check_message([] { value::from_hex("1g"); }, "the text has a character that is not a hexadecimal digit");
    check_message([] { value::from_hex("1203aabb"); }, "the input ends inside the digest (2 of 3 bytes)");
    check_message([] { value::from_hex(""); }, "the input is empty");
    check_message([] { value(1ull << 63, ""); }, "the code 9223372036854775808 is 2^63 or more");
    check_message([] { cid(2, MULTIHASH_CID_RAW, value()); }, "the version is unknown");
    check_message([] { cid(1, MULTIHASH_CID_RAW, value()).text('Q'); }, "the text must start with b, f, z or Qm");
    std::string_view future = "\2\x55"; // unchanged by an error
    check_message([&] { cid::read(future); }, "the version is unknown");
    CHECK(future.size() == 2);
    CHECK(value::from_hex("1202aAfF") == value(0x12, "\xaa\xff") && value() == value(0, ""));
    CHECK(value(0x12, "").name() == "sha2-256" && value(1, "").name().empty());
    CHECK(value(0xb220, "").name() == "blake2b-256");
    value from(0x12, "abc"), to = std::move(from);
    from = to;
    CHECK(from == to && to.digest() == "abc");
}

int main(int argc, char **argv)
{
    CHECK(argc == 2);
    const std::string folder = argv[1];
    for (const row &columns : rows_of(folder + "/verdicts.tsv")) check_verdict(columns);
    for (const row &columns : rows_of(folder + "/values.tsv")) {
        if (columns[0] == "order") {
            check_order(columns);
        } else {
            check_value(columns);
        }
    }
    for (const row &columns : rows_of(folder + "/cids.tsv")) check_cid(columns);
    check_texts();
    puts("passed");
}
