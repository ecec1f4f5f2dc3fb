// Tests noddychest.hpp: each call on the rows below, with results from README.md, RFC 3629 and the Unicode standard, and on random bytes
// against the calls of noddychest.h. Prints what differs, and then `N passed, M failed`.
#include "noddychest.hpp"

#include <algorithm>
#include <array>
#include <cstdio>
#include <cstring>
#include <list>
#include <map>
#include <memory_resource>
#include <random>
#include <string>
#include <vector>

using namespace std::literals;

static unsigned long passed, failed;

static void expect(bool holds, const char *what) {
    if (holds) passed++;
    else if (failed++ < 20) std::printf("FAILED: %s\n", what);
}

// ---- What holds when it is compiled

static_assert(!std::is_copy_constructible_v<nody::recoder> && !std::is_copy_assignable_v<nody::recoder>);
static_assert(std::is_nothrow_move_constructible_v<nody::recoder> && std::is_nothrow_move_assignable_v<nody::recoder>);
static_assert(noexcept(nody::is_valid(""sv)) && noexcept(nody::first_fault(u""sv)) && noexcept(nody::pieces(""sv)) && noexcept(nody::char_count(""sv)));
static_assert(noexcept(nody::offset_of(""sv, 0)) && noexcept(nody::number_of(u""sv, 0)) && noexcept(nody::changed_range(nody::encoding::utf8, ""sv, 0, 0)));
static_assert(noexcept(++nody::pieces(""sv).begin()) && noexcept(nody::boundary_before(nody::encoding::utf8, ""sv, 0)));
static_assert(noexcept(nody::faults(u""sv).begin()) && noexcept(nody::encoding_of_bom(""sv)) && noexcept(nody::undecided_len(nody::encoding::utf8, ""sv)));
static_assert(std::is_same_v<decltype(nody::first_fault(""sv)), std::optional<nody::piece>>);

static_assert(!std::is_copy_constructible_v<nody::decoder> && !std::is_copy_assignable_v<nody::decoder>);
static_assert(std::is_nothrow_move_constructible_v<nody::decoder> && std::is_nothrow_move_assignable_v<nody::decoder>);
static_assert(sizeof(nody::located::offset) == 8 && std::is_trivially_copyable_v<nody::located>);
static_assert(noexcept(std::declval<nody::decoder &>().feed(""sv)) && noexcept(std::declval<nody::decoder &>().finish_faults()));
static_assert(noexcept(++std::declval<nody::decoder &>().feed(""sv).begin()) && noexcept(std::declval<nody::decoder &>().feed_into(""sv, nullptr, 0)));
using parted = decltype(std::declval<nody::decoder &>().feed(""sv));
static_assert(!std::is_copy_constructible_v<parted> && !std::is_copy_assignable_v<parted>);
static_assert(std::is_nothrow_move_constructible_v<parted> && std::is_nothrow_move_assignable_v<parted>);
static_assert(noexcept(nody::guess_of(""sv)) && noexcept(nody::guesses_of(""sv)) && noexcept(nody::surveyor()) && noexcept(std::declval<nody::surveyor &>().feed(""sv)));
static_assert(noexcept(nody::position(nody::encoding::utf8)) && noexcept(std::declval<nody::position &>().advance(""sv)));
static_assert(noexcept(nody::first(""sv)) && noexcept(nody::last(u""sv)) && std::is_same_v<decltype(nody::first(""sv)), std::optional<nody::piece>>);

// What nody::bytes is made of, and what not.
enum class octet : unsigned char {};
struct buffer { // (as a user has one)
    char text[4];
    const char *data() const { return text; }
    char *data() { return text; }
    unsigned short size() const { return sizeof text; }
};
struct untyped {
    const void *data() const;
    std::size_t size() const;
};
struct drain { // (its bytes can only be changed)
    char *data();
    std::size_t size() const;
};
template <class... Texts> constexpr bool are_bytes = (std::is_convertible_v<const Texts &, nody::bytes> && ...);
template <class... Texts> constexpr bool are_no_bytes = !(std::is_constructible_v<nody::bytes, const Texts &> || ...);
static_assert(are_bytes<std::vector<unsigned char>, std::vector<char>, std::vector<signed char>, std::vector<std::byte>, std::vector<octet>, std::pmr::vector<std::byte>>);
static_assert(are_bytes<std::array<std::byte, 0>, std::array<std::byte, 4>, std::array<const unsigned char, 4>, std::string, std::pmr::string, std::string_view, const char *, buffer, nody::bytes>);
static_assert(are_no_bytes<std::vector<bool>, std::array<bool, 4>, std::vector<int>, std::vector<char16_t>, std::u16string, std::u16string_view, std::wstring, std::list<char>>);
static_assert(are_no_bytes<std::map<char, char>, untyped, drain, int, const void *, std::optional<std::string>, nody::encoding>);

// Whether pieces and faults take a text of that type.
template <class Text, class = void> struct takes : std::false_type {};
template <class Text> struct takes<Text, std::void_t<decltype(nody::pieces(std::declval<Text>())), decltype(nody::pieces_back(std::declval<Text>())), decltype(nody::faults(std::declval<Text>()))>> : std::true_type {};
template <class Text, class = void> struct lists : std::false_type {};
template <class Text> struct lists<Text, std::void_t<decltype(nody::faults(std::declval<Text>()))>> : std::true_type {};
static_assert(takes<std::string &>::value && takes<std::string_view>::value && takes<const char *>::value && takes<std::u16string &>::value);
static_assert(!takes<std::string>::value && !takes<std::u16string>::value && !lists<std::string>::value && !lists<std::u16string>::value);
static_assert(takes<std::pmr::string &>::value && !takes<std::pmr::string>::value && !takes<const std::pmr::u16string>::value && !lists<std::pmr::string>::value);
// (a type of the user that owns its text, and gives a view of it)
struct owner : std::string {};
struct keeper {
    std::string text;
    operator std::string_view() const { return text; }
};
static_assert(takes<owner &>::value && takes<const keeper &>::value && !takes<owner>::value && !takes<keeper>::value && !lists<const owner>::value && !lists<keeper>::value);
static_assert(!takes<const std::string>::value && !takes<const std::u16string>::value && !lists<const std::string>::value && !lists<const std::u16string>::value);

// Whether a decoder, which is no temporary or is one, gives ranges over a part of that type.
template <class Decoder, class Text, class = void> struct feeds : std::false_type {};
template <class Decoder, class Text> struct feeds<Decoder, Text, std::void_t<decltype(std::declval<Decoder>().feed(std::declval<Text>()))>> : std::true_type {};
template <class Decoder, class Text, class = void> struct feeds_faults : std::false_type {};
template <class Decoder, class Text> struct feeds_faults<Decoder, Text, std::void_t<decltype(std::declval<Decoder>().feed_faults(std::declval<Text>()))>> : std::true_type {};
static_assert(feeds<nody::decoder &, std::string &>::value && feeds<nody::decoder &, std::string_view>::value && feeds_faults<nody::decoder &, const char *>::value);
static_assert(!feeds<nody::decoder &, std::string>::value && !feeds_faults<nody::decoder &, std::string>::value);
static_assert(!feeds<nody::decoder &, const std::string>::value && !feeds_faults<nody::decoder &, const std::string>::value);
static_assert(feeds<nody::decoder &, std::pmr::string &>::value && !feeds<nody::decoder &, std::pmr::string>::value && !feeds_faults<nody::decoder &, std::pmr::string>::value);
static_assert(feeds<nody::decoder &, owner &>::value && !feeds<nody::decoder &, owner>::value && !feeds_faults<nody::decoder &, owner>::value);
static_assert(!feeds<nody::decoder, std::string_view>::value && !feeds_faults<nody::decoder, std::string_view>::value);

// Whether no call that keeps a view takes a temporary of a type, and each of them one that is none.
template <class Text> constexpr bool is_owner = takes<Text &>::value && takes<const Text &>::value && !takes<Text>::value && !takes<const Text>::value && !lists<Text>::value &&
                                                feeds<nody::decoder &, Text &>::value && !feeds<nody::decoder &, Text>::value && !feeds<nody::decoder &, const Text>::value &&
                                                feeds_faults<nody::decoder &, Text &>::value && !feeds_faults<nody::decoder &, Text>::value;
template <class Text> constexpr bool is_view = takes<Text &>::value && takes<Text>::value && feeds<nody::decoder &, Text>::value && feeds_faults<nody::decoder &, Text>::value;
static_assert(is_owner<std::vector<unsigned char>> && is_owner<std::vector<char>> && is_owner<std::pmr::vector<std::byte>> && is_owner<std::string> && is_owner<keeper> && is_owner<owner>);
static_assert(is_owner<std::array<std::byte, 3>> && is_owner<std::array<const std::byte, 3>> && is_owner<std::array<char, 0>> && is_owner<buffer> && is_owner<char[3]>);
static_assert(!takes<drain>::value && !takes<drain &>::value && !takes<untyped>::value && !feeds<nody::decoder &, drain>::value);
static_assert(is_view<std::string_view> && is_view<nody::bytes> && is_view<const char *> && is_view<char *>);

#if __cplusplus >= 202002L
#include <ranges>
#include <span>
static_assert(std::ranges::input_range<decltype(std::declval<nody::decoder &>().feed(""sv)) &> && std::input_iterator<decltype(std::declval<nody::decoder &>().feed_faults(""sv).begin())>);
static_assert(std::ranges::forward_range<decltype(nody::pieces(""sv))> && std::ranges::borrowed_range<decltype(nody::pieces_back(u""sv))>);
static_assert(std::ranges::forward_range<decltype(nody::faults(u""sv))> && std::ranges::borrowed_range<decltype(nody::faults(""sv))>);

#if (!defined(__clang__) || __clang_major__ >= 16) && defined(__cpp_lib_ranges) && __cpp_lib_ranges >= 202110L
static_assert(is_view<std::ranges::subrange<const char *>>);

// Views take a range over a part, whether it is a temporary or not.
static void try_pipes() {
    auto is_wrong = [](const nody::located &it) { return !it.is_ok(); };
    auto offset = [](const nody::located &it) { return it.offset; };
    std::string text = "a\xE2\x82" "b\xFF";
    std::vector<std::uint64_t> found;
    nody::decoder decoder(nody::encoding::utf8);
    for (std::uint64_t it : decoder.feed(text) | std::views::filter(is_wrong) | std::views::transform(offset)) found.push_back(it);
    for (std::uint64_t it : decoder.feed_faults(text) | std::views::transform(offset)) found.push_back(it);
    expect(found == std::vector<std::uint64_t>{1, 2, 4, 6, 7, 9} && decoder.offset() == 10, "views over parts that are temporaries");
    auto kept = decoder.feed("\xFF" "c\xF0\x9F") | std::views::filter(is_wrong);
    auto moved = std::move(kept);
    expect(std::ranges::distance(moved) == 1 && decoder.offset() == 12 && decoder.held() == 2, "a view that is kept, and moved");
    expect(std::ranges::distance(decoder.finish() | std::views::filter(is_wrong)) == 2, "views over the end");
    auto part = decoder.feed(text);
    expect(std::ranges::distance(part | std::views::filter(is_wrong)) == 3 && part.rest().size() == 0, "views over a range that is none");
    for (const nody::located &it : decoder.feed(text) | std::views::take_while([](const nody::located &piece) { return piece.is_ok(); })) expect(it.scalar == U'a', "a view that ends early");
    expect(decoder.offset() == 14 + 5 + 2 && decoder.held() == 0, "and where the decoder is then");
}
#else
static void try_pipes() {}
#endif

static_assert(are_bytes<std::span<const std::byte>, std::span<std::byte, 4>, std::span<unsigned char>, std::span<char8_t>, std::u8string, std::u8string_view, const char8_t *>);
static_assert(are_no_bytes<std::span<int>, std::span<bool>, std::span<const char16_t, 2>, std::u32string>);
static_assert(is_view<std::span<std::byte>> && is_view<std::span<const char, 3>> && is_view<std::u8string_view> && is_owner<std::u8string> && is_owner<std::vector<char8_t>>);

static void try_spans() {
    const unsigned char raw[] = {'a', 0xFF};
    std::vector<std::byte> blank(2);
    std::vector<char> chars = {'a', 'b'};
    expect(nody::valid_up_to(nody::encoding::utf8, std::span(raw)) == 1, "a span of unsigned char");
    expect(nody::is_valid(nody::encoding::utf8, std::span(blank)) && nody::is_valid(nody::encoding::utf8, std::span<const char>(chars)), "spans of bytes and of char");
    expect(nody::is_valid(nody::encoding::utf8, u8"\u00E9"sv), "a u8string_view");
    static_assert(feeds<nody::decoder &, std::u8string &>::value && !feeds<nody::decoder &, std::u8string>::value && !feeds_faults<nody::decoder &, const std::u8string>::value);
    expect(nody::is_valid(nody::encoding::utf8, std::u8string(u8"\u00E9")) && nody::recode(nody::encoding::utf8, nody::encoding::utf16le, std::u8string(u8"a")).size() == 2, "a u8string");
    expect(!nody::encoding_of_bom(std::span(raw)) && nody::undecided_len(nody::encoding::utf16le, std::span(raw).first(1)) == 1, "a mark, and an end, of spans");
    expect(std::ranges::distance(nody::faults("a\xFF" "b\xFE"sv)) == 2, "an algorithm of ranges over faults");
    const nody::piece &longest = *std::ranges::max_element(nody::pieces("a\xC3\xA9" "b"sv), {}, &nody::piece::length);
    expect(longest.offset == 1 && longest.length == 2, "what a place has stays where the place goes");
#if !defined(__clang__) || __clang_major__ >= 16 // (before that clang does not compile the views of libstdc++)
    auto wrong = nody::pieces("a\xFF" "b\xFE"sv) | std::views::filter([](const nody::piece &it) { return !it.is_ok(); });
    expect(std::ranges::distance(wrong) == 2, "views over pieces");
#endif
    expect(std::ranges::count_if(nody::pieces("a\xFF" "b\xFE"sv), [](const nody::piece &it) { return !it.is_ok(); }) == 2, "an algorithm of ranges");
    nody::decoder decoder(nody::encoding::utf8);
    auto part = decoder.feed(std::span(raw));
    expect(std::ranges::count_if(part, [](const nody::located &it) { return !it.is_ok(); }) == 1 && decoder.offset() == 2, "an algorithm of ranges over a part");
    expect(nody::is_valid(u8"\u00E9") && nody::char_count(u8"\u00E9\u00E8") == 2 && std::ranges::distance(nody::pieces(u8"\u00E9")) == 1, "a literal of char8_t");
    try_pipes();
}
#else
static void try_spans() {}
#endif

// ---- Rows

static std::vector<nody::piece> all(std::string_view text) {
    std::vector<nody::piece> found;
    for (const nody::piece &it : nody::pieces(text)) found.push_back(it);
    return found;
}

static void try_pieces() {
    const std::vector<nody::piece> want = {{0, 1, U'h', nody::kind::ok}, {1, 2, U'\u00E9', nody::kind::ok}, {3, 1, 0, nody::kind::interrupted_sequence},
                                           {4, 1, 0, nody::kind::unexpected_continuation_byte}, {5, 1, U'A', nody::kind::ok}, {6, 4, U'\U0001F600', nody::kind::ok}};
    std::string text = "h\xC3\xA9\xE2\x82" "A\xF0\x9F\x98\x80";
    expect(all(text) == want, "pieces");
    expect(all("").empty() && all({}).empty() && all(std::string_view("\0", 1)).size() == 1, "pieces of nothing, and of a zero");
    std::vector<nody::piece> back;
    for (const nody::piece &it : nody::pieces_back(text)) back.push_back(it);
    expect(back.size() == 6 && back[0] == want[5] && back[5] == want[0] && back[3].offset == 3, "pieces from the back");
    expect(back[3].kind == nody::kind::too_few_bytes, "a kind from the back");
    const char16_t units[] = {0x41, 0xD800, 0xD83D, 0xDE00, 0xDC00};
    std::vector<nody::piece> wide;
    for (const nody::piece &it : nody::pieces(std::u16string_view(units, 5))) wide.push_back(it);
    const std::vector<nody::piece> want_wide = {{0, 1, U'A', nody::kind::ok}, {1, 1, 0, nody::kind::unmatched_leading_surrogate}, {2, 2, U'\U0001F600', nody::kind::ok},
                                                {4, 1, 0, nody::kind::unexpected_trailing_surrogate}};
    expect(wide == want_wide, "pieces of units");
    expect(std::count_if(nody::pieces(text).begin(), nody::pieces(text).end(), [](const nody::piece &it) { return !it.is_ok(); }) == 2, "an algorithm");
    auto first = nody::pieces(text).begin(), second = first++;
    expect(second->offset == 0 && first->offset == 1 && first != second, "two places");
}

static void try_single() {
    expect(nody::is_valid("na\xC3\xAFve") && !nody::is_valid("caf\xE9 au"), "valid");
    auto fault = nody::first_fault("caf\xE9 au");
    expect(fault && fault->offset == 3 && fault->length == 1 && fault->kind == nody::kind::interrupted_sequence, "first_fault");
    expect(!nody::first_fault("") && !nody::first_fault(u"A\U0001F600") && nody::first_fault(u"A\xD800")->kind == nody::kind::incomplete, "first_fault of nothing, and of units");
    expect(nody::char_count("\xE2\x82\xAC!") == 2 && nody::char_count(u"\U0001F600!") == 2, "count");
    expect(nody::offset_of("\xE2\x82\xAC!", 1) == 3 && !nody::offset_of("\xE2\x82\xAC!", 2) && !nody::offset_of(""sv, 0), "the offset of a piece");
    expect(nody::offset_of(u"\U0001F600!", 1) == 2 && !nody::offset_of(u"\U0001F600!", 2), "the offset of a piece of units");
    expect(nody::number_of("\xE2\x82\xAC!", 1) == 1 && nody::number_of("\xE2\x82\xAC!", 9) == 2 && nody::number_of(u"\U0001F600!", 2) == 1, "numbers");
    expect(nody::char_count(nody::encoding::utf16be, "\xD8\x3D\xDE\x00!"sv) == 2 && nody::char_count(nody::encoding::utf8, "\xE2\x82\xAC!"sv) == 2, "count in an encoding");
    expect(nody::offset_of(nody::encoding::utf16be, "\xD8\x3D\xDE\x00!"sv, 1) == 4 && !nody::offset_of(nody::encoding::utf16be, "\xD8\x3D\xDE\x00!"sv, 2), "the offset of a piece in an encoding");
    expect(nody::number_of(nody::encoding::utf16be, "\xD8\x3D\xDE\x00!"sv, 1) == 1 && nody::number_of(nody::encoding::utf16be, "\xD8\x3D\xDE\x00!"sv, 9) == 2, "numbers in an encoding");
    nody::byte_range changed = nody::changed_range(nody::encoding::utf8, "abc\xE2\x82\xAC" "def\xE2\x82\xAC" "ghi", 7, 8);
    expect(changed.start == 3 && changed.end == 12, "what a change reaches");
    expect(nody::changed_range(static_cast<nody::encoding>(3), "a", 0, 0).end == SIZE_MAX, "what a change reaches in no encoding");
    expect(nody::boundary_before(nody::encoding::utf8, "a\xE2\x82\xAC", 3) == 1 && nody::boundary_after(nody::encoding::utf8, "a\xE2\x82\xAC", 2) == 4, "boundaries");
    expect(nody::boundary_before(u"\U0001F600", 1) == 0 && nody::boundary_after(u"\U0001F600", 1) == 2, "boundaries of units");
    expect(nody::name(nody::kind::overlong_encoding) == "OverlongEncoding" && nody::sentence(nody::kind::ok) == "a character", "name and sentence");
    expect(nody::supported() && nody::version() == NODY_VERSION, "supported and version");
}

// Each call that takes text in bytes, on the text "h", é, FF in some type.
template <class Text> static void try_text(const Text &text, const char *what) {
    using nody::encoding;
    auto count = [](auto &&range) { return std::distance(range.begin(), range.end()); };
    nody::decoder decoder(encoding::utf8);
    nody::recoder recoder(encoding::utf8, encoding::utf8);
    nody::located room[4];
    std::uint8_t bytes[16];
    std::string out, lossy, repaired, strict, stopped;
    auto part = decoder.feed(text);
    auto faults = decoder.feed_faults(text);
    bool holds = count(nody::pieces(text)) == 3 && count(nody::pieces_back(text)) == 3 && count(nody::faults(text)) == 1 && count(part) == 3 && count(faults) == 1;
    holds = holds && !nody::is_valid(text) && !nody::is_valid(encoding::utf8, text) && nody::valid_up_to(text) == 3 && nody::valid_up_to(encoding::utf8, text) == 3;
    holds = holds && nody::first_fault(text)->offset == 3 && nody::first(text)->scalar == U'h' && nody::last(text)->offset == 3 && nody::char_count(text) == 3 && nody::char_count(encoding::utf8, text) == 3;
    holds = holds && nody::offset_of(text, 2) == 3U && nody::offset_of(encoding::utf8, text, 2) == 3U && nody::number_of(text, 3) == 2 && nody::number_of(encoding::utf8, text, 3) == 2;
    holds = holds && nody::boundary_before(encoding::utf8, text, 2) == 1 && nody::boundary_after(encoding::utf8, text, 2) == 3 && nody::changed_range(encoding::utf8, text, 4, 4).end == 4;
    holds = holds && nody::undecided_len(encoding::utf8, text) == 0 && !nody::encoding_of_bom(text) && nody::recoded_len(encoding::utf8, encoding::utf8, text) == 6U;
    holds = holds && nody::recode(encoding::utf8, encoding::utf8, text) == "h\xC3\xA9\xEF\xBF\xBD" && nody::to_utf16(text) == u"h\u00E9\uFFFD" && nody::recode_strict(encoding::utf8, encoding::utf8, text, stopped)->offset == 3;
    recoder.feed(text, out);
    recoder.feed_lossy(text, lossy);
    recoder.feed_repair(text, repaired, nody::repair::latin_1);
    holds = holds && out == "h\xC3\xA9\xEF\xBF\xBD" && lossy == out && repaired == "h\xC3\xA9\xC3\xBF" && recoder.feed_strict(text, strict)->offset == 15 && strict == "h\xC3\xA9";
    holds = holds && nody::recode_lossy(encoding::utf8, encoding::utf8, text) == lossy && nody::recode_repair(encoding::utf8, encoding::utf8, text, nody::repair::drop) == "h\xC3\xA9";
    holds = holds && recoder.feed_into(text, bytes, sizeof bytes).written == 6 && decoder.feed_into(text, room, 4).written == 3 && decoder.feed_faults_into(text, room, 4).written == 1;
    expect(holds, what);
}

template <class Bytes> static Bytes made_of() {
    const unsigned char text[] = {'h', 0xC3, 0xA9, 0xFF};
    Bytes made{};
    if constexpr (std::is_same_v<decltype(made.size()), unsigned short>) { // buffer
        std::memcpy(made.data(), text, sizeof text);
    } else {
        using element = typename Bytes::value_type;
        if constexpr (std::is_constructible_v<Bytes, std::size_t, element>) made = Bytes(sizeof text, element{});
        for (std::size_t i = 0; i < sizeof text; i++) made[i] = static_cast<element>(text[i]);
    }
    return made;
}

template <class... Texts> static void try_each() { (try_text(made_of<Texts>(), __func__), ...); }

static void try_texts() {
    try_each<std::vector<unsigned char>, std::vector<char>, std::vector<signed char>, std::vector<std::byte>, std::vector<octet>, std::pmr::vector<unsigned char>>();
    try_each<std::array<std::byte, 4>, std::array<unsigned char, 4>, std::array<char, 4>, std::string, std::pmr::string, buffer>();
    const std::array<const std::byte, 4> fixed = {std::byte{'h'}, std::byte{0xC3}, std::byte{0xA9}, std::byte{0xFF}};
    try_text(fixed, "an array of constants");
    try_text(std::string_view("h\xC3\xA9\xFF"), "a view");
    try_text("h\xC3\xA9\xFF", "a literal");
    try_text(nody::bytes("h\xC3\xA9\xFF"), "nody::bytes");
    try_text(keeper{"h\xC3\xA9\xFF"}, "what gives a view");
#if __cplusplus >= 202002L
    try_each<std::u8string, std::vector<char8_t>>();
    try_text(std::span(fixed), "a span of a fixed length");
    try_text(std::span<const std::byte>(fixed), "a span");
    try_text(std::u8string_view(reinterpret_cast<const char8_t *>(fixed.data()), 4), "a view of char8_t");
#endif
    std::vector<unsigned char> nothing;
    expect(nody::is_valid(nothing) && nody::pieces(nothing).begin() == nody::pieces(nothing).end() && !nody::first(nothing) && nody::to_utf16(nothing).empty(), "a vector of nothing");
}

static void try_one() {
    expect(nody::first("\xE2\x82\xAC!") == nody::piece{0, 3, U'\u20AC', nody::kind::ok} && nody::first("\x80" "a") == nody::piece{0, 1, 0, nody::kind::unexpected_continuation_byte}, "first");
    expect(nody::last("!\xE2\x82\xAC") == nody::piece{1, 3, U'\u20AC', nody::kind::ok} && nody::last("a\xC3") == nody::piece{1, 1, 0, nody::kind::too_few_bytes}, "last");
    expect(nody::first(u"\U0001F600!") == nody::piece{0, 2, U'\U0001F600', nody::kind::ok} && nody::last(u"!\U0001F600") == nody::piece{1, 2, U'\U0001F600', nody::kind::ok}, "first and last of units");
    expect(nody::last(std::u16string(1, 0xD800)) == nody::piece{0, 1, 0, nody::kind::incomplete}, "a lone surrogate that is the last");
    expect(!nody::first("") && !nody::last("") && !nody::first(u"") && !nody::last(u"") && !nody::first(nody::bytes()) && !nody::last(nody::bytes()), "first and last of nothing");
    std::string text = "<";
    std::u16string units = u"<";
    for (char32_t it : {U'A', U'\u00E9', U'\u20AC', U'\U0001F600', U'\U0010FFFF', U'\0'}) expect(nody::encode(it, text) && nody::encode(it, units), "encode");
    for (char32_t it : {char32_t{0xD800}, char32_t{0xDFFF}, char32_t{0x110000}, char32_t{0xFFFFFFFF}}) expect(!nody::encode(it, text) && !nody::encode(it, units), "encode what is no character");
    expect(text == "<A\xC3\xA9\xE2\x82\xAC\xF0\x9F\x98\x80\xF4\x8F\xBF\xBF\0"s && units == u"<A\u00E9\u20AC\U0001F600\U0010FFFF\0"s, "what encode added");
}

static void try_faults() {
    std::string text = "h\xC3\xA9\xE2\x82" + std::string(1000, 'A') + "\xF0\x9F";
    const std::vector<nody::piece> want = {{3, 1, 0, nody::kind::interrupted_sequence}, {4, 1, 0, nody::kind::unexpected_continuation_byte},
                                           {1005, 1, 0, nody::kind::too_few_bytes}, {1006, 1, 0, nody::kind::unexpected_continuation_byte}};
    std::vector<nody::piece> found;
    for (const nody::piece &it : nody::faults(text)) found.push_back(it);
    expect(found == want, "faults");
    auto none = nody::faults(""sv), valid = nody::faults("na\xC3\xAFve"sv), empty = nody::faults(std::string_view());
    expect(none.begin() == none.end() && valid.begin() == valid.end() && empty.begin() == empty.end(), "faults of nothing, and of what is valid");
    const char16_t units[] = {0x41, 0xD800, 0x42, 0xD83D, 0xDE00, 0xDC00, 0x43, 0xD801};
    const std::vector<nody::piece> want_wide = {{1, 1, 0, nody::kind::unmatched_leading_surrogate}, {5, 1, 0, nody::kind::unexpected_trailing_surrogate},
                                                {7, 1, 0, nody::kind::incomplete}};
    std::vector<nody::piece> wide;
    for (const nody::piece &it : nody::faults(std::u16string_view(units, 8))) wide.push_back(it);
    expect(wide == want_wide, "faults of units");
    auto first = nody::faults(text).begin(), second = first++;
    expect(second->offset == 3 && first->offset == 4 && first != second && second == nody::faults(text).begin(), "two places of faults");
}

static void try_marks() {
    using nody::encoding;
    auto tells = [](std::string_view text, encoding want, std::size_t len) {
        std::optional<nody::bom> mark = nody::encoding_of_bom(text);
        return mark && mark->encoding == want && mark->length == len;
    };
    expect(tells("\xEF\xBB\xBF", encoding::utf8, 3) && tells("\xEF\xBB\xBF\xFF\xFE", encoding::utf8, 3), "the mark of UTF-8");
    expect(tells("\xFF\xFE", encoding::utf16le, 2) && tells("\xFF\xFE\0\0"sv, encoding::utf16le, 2) && tells("\xFE\xFF" "a", encoding::utf16be, 2), "the marks of UTF-16");
    for (std::string_view it : {""sv, "a"sv, "\xEF"sv, "\xEF\xBB"sv, "\xEF\xBB\xBE"sv, "\xFF"sv, "\xFE\xFE"sv, "a\xFF\xFE"sv}) expect(!nody::encoding_of_bom(it), "no mark");
    expect(!nody::encoding_of_bom({}) && nody::encoding_of_bom({}).value_or(nody::bom{}).length == 0, "no mark of nothing");
}

static void try_undecided() {
    using nody::encoding;
    expect(nody::undecided_len(encoding::utf8, "a\xE2\x82") == 2 && nody::undecided_len(encoding::utf8, "a\xE2\x82\xAC") == 0, "the front of a character");
    expect(nody::undecided_len(encoding::utf8, "\xF0\x9F\x98") == 3 && nody::undecided_len(encoding::utf8, "\xED\xA0") == 2, "three bytes, and those of a surrogate");
    expect(nody::undecided_len(encoding::utf8, "\xF0" "A") == 0 && nody::undecided_len(encoding::utf8, "\xFF") == 0 && nody::undecided_len(encoding::utf8, {}) == 0, "what is decided");
    expect(nody::undecided_len(encoding::utf16le, "a\0\x3D\xD8"s) == 2 && nody::undecided_len(encoding::utf16be, "\0a\xD8\x3D\xDE"s) == 3 &&
               nody::undecided_len(encoding::utf16be, "\0a\0"s) == 1 && nody::undecided_len(encoding::utf16le, "\0\xDC"s) == 0, "what is undecided of UTF-16");
    expect(nody::undecided_len(static_cast<encoding>(3), "a") == SIZE_MAX, "an encoding that there is none of");
}

// (the encodings of these texts are those of the codecs of Python that made them)
static void try_guesses() {
    expect(nody::guess_of("caf\xE9"sv) == nody::guess::windows1252 && nody::guess_of("caf\xC3\xA9"sv) == nody::guess::utf8, "guesses of one byte and of a character");
    expect(nody::guess_of("h\0\xE9\0"sv) == nody::guess::utf16le && nody::guess_of(std::string()) == nody::guess::ascii, "guesses of units and of nothing");
    expect(nody::guess_of("\xF4\xC5\xCB\xD3\xD4"sv) == nody::guess::other_8bit, "a guess of KOI8-R");
    expect(nody::text_of(nody::guess::binary) == "not text" && nody::text_of(static_cast<nody::guess>(99)) == "?", "texts of guesses");
    const nody::guesses told = nody::guesses_of("\xF4\xC5\xCB\xD3\xD4"sv);
    expect(std::vector<nody::guess>(told.begin(), told.end()) == std::vector<nody::guess>{nody::guess::other_8bit, nody::guess::windows1252} && told[1] == nody::guess::windows1252, "guesses");
    nody::surveyor surveyor, other;
    surveyor.feed("caf\xC3"sv);
    other = surveyor;
    other.feed(std::vector<unsigned char>{0xA9});
    expect(nody::guess_of(other.survey()) == nody::guess::utf8 && nody::guess_of(surveyor.survey()) == nody::guess::windows1252, "a copy of a surveyor goes on from there");
    expect(other.survey().len == 5 && surveyor.survey().utf8.faults == 1 && nody::guesses_of(other.survey()).size() == 1, "surveys");
}

static void try_positions() {
    using nody::encoding;
    nody::position at(encoding::utf8), none(static_cast<encoding>(3));
    at.advance("a\nb\xC3");
    nody::position other = at;
    expect(at.line() == 2 && at.column() == 3 && at.byte_column() == 3, "a position within a character");
    at.advance("\xA9" "c");
    other.advance("c"sv);
    expect(at.line() == 2 && at.column() == 4 && at.byte_column() == 5, "a character in two parts");
    expect(other.line() == 2 && other.column() == 4 && other.byte_column() == 4, "a copy of a position continues from there");
    none.advance("a\n");
    expect(none.line() == 1 && none.column() == 1 && none.byte_column() == 1, "a position in no encoding");
    nody::position units(encoding::utf16be);
    units.advance("\0\n\xD8\x3D\xDE\0\0"s);
    expect(units.line() == 2 && units.column() == 3 && units.byte_column() == 6, "a position in UTF-16");
}

static void try_recode() {
    using nody::encoding;
    expect(nody::recode(encoding::utf8, encoding::utf16be, "h\xC3\xA9\xFF") == "\0h\0\xE9\xFF\xFD"s, "recode");
    expect(nody::recode(encoding::utf8, encoding::utf8, "").empty() && nody::recoded_len(encoding::utf8, encoding::utf16le, "abc") == 6U, "recode of nothing, and its length");
    expect(nody::to_utf16("h\xC3\xA9\xF0\x9F\x98\x80\xFF") == u"h\u00E9\U0001F600\uFFFD" && nody::to_utf8(u"h\u00E9\U0001F600") == "h\xC3\xA9\xF0\x9F\x98\x80", "to_utf16, to_utf8");
    expect(nody::to_utf8(std::u16string(1, 0xD800)) == "\xEF\xBF\xBD" && nody::to_utf16("").empty() && nody::to_utf8(u"").empty(), "to_utf8 of a surrogate");
    bool is_refused = false;
    try {
        nody::recode(static_cast<encoding>(3), encoding::utf8, "a");
    } catch (const std::length_error &) {
        is_refused = true;
    }
    expect(is_refused, "recode from no encoding");
    std::string out = "before ";
    auto fault = nody::recode_strict(encoding::utf8, encoding::utf8, "caf\xE9 au", out);
    expect(fault && fault->offset == 3 && fault->kind == nody::kind::interrupted_sequence && out == "before caf", "recode_strict");
    expect(!nody::recode_strict(encoding::utf8, encoding::utf16le, "ab", out) && out == "before cafa\0b\0"s, "recode_strict of what is valid");
    expect(nody::is_valid(encoding::utf16le, "a\0b\0"s) && nody::valid_up_to(encoding::utf16le, "a\0\0\xD8"s) == 2 && nody::valid_up_to(encoding::utf16be, "\0a\0"s) == 2, "valid in an encoding");
}

static void try_recoder() {
    nody::recoder one(nody::encoding::utf8, nody::encoding::utf8);
    std::string out, copied;
    one.feed("caf\xC3", out);
    expect(out == "caf" && one.held() == 1 && one.read() == 4, "a part that ends inside a character");
    nody::recoder copy = one.copy(), two = std::move(one);
    expect(one.held() == 0 && one.read() == 0 && two.held() == 1, "a recoder that was moved"); // NOLINT: it is as new
    two.feed("\xA9\xFF", out);
    two.finish(out);
    copy.feed("!", copied);
    copy.finish(copied);
    expect(out == "caf\xC3\xA9\xEF\xBF\xBD" && two.replaced() == 1 && copied == "\xEF\xBF\xBD!" && copy.replaced() == 1, "a recoder, and its copy");
    one = std::move(two);
    one.reset();
    expect(one.replaced() == 0 && one.read() == 0, "reset");
    std::string lossy;
    one.feed_lossy("\xE2\x82", lossy);
    one.feed_lossy("A\xF0\x9F", lossy);
    one.finish_lossy(lossy);
    expect(lossy == "\xEF\xBF\xBD" "A\xEF\xBF\xBD" && one.replaced() == 4, "maximal subparts, whose bytes are counted");
}

// Windows-1252 by Python's cp1252, ISO-8859-1, and tables of each type that gives one.
static void try_repairs() {
    using nody::encoding;
    using nody::repair;
    const char mixed[] = "\x80\x81 caf\xE9 na\xC3\xAFve\xF0\x9F";
    auto fixed = [&](const repair &by) { return nody::recode_repair(encoding::utf8, encoding::utf8, mixed, by); };
    expect(fixed(repair::drop) == " caf na\xC3\xAFve", "invalid bytes that are dropped");
    expect(fixed(repair::windows_1252) == "\xE2\x82\xAC\xC2\x81 caf\xC3\xA9 na\xC3\xAFve\xC3\xB0\xC5\xB8", "Windows-1252");
    expect(fixed(repair::latin_1) == "\xC2\x80\xC2\x81 caf\xC3\xA9 na\xC3\xAFve\xC3\xB0\xC2\x9F", "ISO-8859-1");
    std::array<char32_t, 2> two = {U'<', U'>'};
    const std::vector<std::optional<char32_t>> some = {std::nullopt, U'\uFFFF'};
    expect(fixed(*repair::from(two)) == "<> caf na\xC3\xAFve", "the table of an array");
    expect(fixed(repair::from(some).value()) == "\xEF\xBF\xBF caf na\xC3\xAFve", "the table of a vector");
    expect(fixed(*repair::from(std::vector<char32_t>{})) == fixed(repair::drop), "an empty table");
#if __cplusplus >= 202002L
    expect(fixed(*repair::from(std::span<const char32_t>(two))) == "<> caf na\xC3\xAFve", "the table of a span");
#endif
    unsigned calls = 0;
    auto counted = [&calls](std::uint8_t byte) {
        expect(byte == 0x80 + calls++, "the byte that a table is asked for");
        return static_cast<char32_t>(byte == 0xE9 ? U'e' : U'?');
    };
    auto asked = repair::from(counted);
    expect(calls == 128 && asked && fixed(*asked) == "?? cafe na\xC3\xAFve??" && calls == 128, "the table of a function");
    expect(fixed(*repair::from([](std::uint8_t) { return std::optional<char32_t>(); })) == fixed(repair::drop), "a function that has no character");
    expect(nody::recode_repair(encoding::utf16le, encoding::utf8, "\0\xDC!"s, *repair::from([](std::uint8_t) { return std::optional<char32_t>(); })).empty(), "UTF-16 by it");
    expect(nody::recode_repair(encoding::utf16le, encoding::utf8, "\0\xDC!"s, repair::latin_1) == "\xEF\xBF\xBD\xEF\xBF\xBD", "UTF-16 by a table");
    for (char32_t wrong : {char32_t{0xD800}, char32_t{0xDFFF}, char32_t{0x10000}, char32_t{0x1F600}, char32_t{0xFFFFFFFF}}) {
        two[1] = wrong;
        expect(!repair::from(two) && !repair::from([&](std::uint8_t) { return wrong; }), "what is no character up to U+FFFF");
    }
    expect(!repair::from(std::vector<char32_t>(129, U'a')) && repair::from(std::vector<char32_t>(128, U'a')), "a table that is too long");
#ifdef __cpp_exceptions
    bool came = false;
    try {
        (void)repair::from([](std::uint8_t byte) -> char32_t { return byte < 0x90 ? U'a' : throw std::runtime_error("of the caller"); });
    } catch (const std::runtime_error &it) {
        came = it.what() == "of the caller"s;
    }
    expect(came, "what a function throws");
#endif
    nody::recoder parts(encoding::utf8, encoding::utf16be);
    std::string out;
    for (char byte : std::string_view(mixed)) parts.feed_repair(std::string_view(&byte, 1), out, repair::windows_1252);
    expect(parts.held() == 2 && parts.replaced() == 3, "the end is held");
    parts.finish_repair(out, repair::windows_1252);
    expect(out == nody::recode_repair(encoding::utf8, encoding::utf16be, mixed, repair::windows_1252) && parts.replaced() == 5 && parts.held() == 0, "byte by byte");
    static_assert(repair::windows_1252.number() == NODY_REPAIR_WINDOWS_1252 && repair::drop.table_len() == 0, "the named ones are constants");
}

static void try_strict_recoder() {
    nody::recoder it(nody::encoding::utf8, nody::encoding::utf16be);
    std::string out;
    std::size_t read = 0;
    expect(!it.feed_strict("ab\xE2", out, &read) && read == 3, "a part without a fault");
    auto fault = it.feed_strict("\x41" "c\xFF", out, &read);
    expect(fault && fault->offset == 2 && fault->length == 1 && fault->kind == nody::kind::interrupted_sequence, "a fault that was held");
    std::string_view rest = std::string_view("\x41" "c\xFF").substr(read);
    fault = it.feed_strict(rest, out, &read);
    expect(fault && fault->offset == 5 && fault->kind == nody::kind::non_utf8_byte, "the next fault");
    it.feed_strict(rest.substr(read), out);
    it.feed_strict("\xC3", out);
    fault = it.finish_strict(out);
    expect(fault && fault->offset == 6 && fault->kind == nody::kind::too_few_bytes && !it.finish_strict(out), "a fault at the end");
    expect(out == "\0a\0b\0A\0c"s, "what was written before and between the faults");
    std::uint8_t room[4];
    nody::recoder small(nody::encoding::utf8, nody::encoding::utf8);
    nody::recoder::progress made = small.feed_into("abcde", room, sizeof room);
    expect(made.status == nody::status::full && made.written == 4 && std::memcmp(room, "abcd", 4) == 0, "a room that is full");
    made = small.feed_into(std::string_view("abcde").substr(made.read), room, sizeof room);
    expect(made.status == nody::status::done && made.written == 1 && small.finish_into(room, sizeof room).status == nody::status::done, "the rest into a room");
}

// ---- Pieces of parts

template <class Range> static std::vector<nody::located> taken(Range &&range) {
    std::vector<nody::located> found;
    for (const nody::located &it : range) found.push_back(it);
    return found;
}

static void join(std::vector<nody::located> &to, const std::vector<nody::located> &more) { to.insert(to.end(), more.begin(), more.end()); }

static const std::uint64_t FAR = (std::uint64_t{1} << 32) - 2;

static void try_decoder() {
    using nody::kind;
    nody::decoder it(nody::encoding::utf8);
    std::string one = "h\xC3\xA9\xE2", two = "\x82" "A\xF0\x9F";
    const std::vector<nody::located> want = {{0, 1, U'h', kind::ok}, {1, 2, U'\u00E9', kind::ok}, {3, 1, 0, kind::interrupted_sequence}, {4, 1, 0, kind::unexpected_continuation_byte},
                                             {5, 1, U'A', kind::ok}, {6, 1, 0, kind::too_few_bytes}, {7, 1, 0, kind::unexpected_continuation_byte}};
    std::vector<nody::located> found = taken(it.feed(one));
    expect(found.size() == 2 && it.offset() == 3 && it.held() == 1, "a part that ends inside a character");
    join(found, taken(it.feed(two)));
    expect(found.size() == 5 && it.offset() == 6 && it.held() == 2, "the next part");
    join(found, taken(it.finish()));
    expect(found == want && it.offset() == 8 && it.held() == 0 && taken(it.finish()).empty(), "the pieces of two parts, and the end");
    expect(taken(it.feed("")).empty() && taken(it.feed({})).empty() && taken(it.feed_faults({})).empty() && it.offset() == 8, "parts of nothing");
    it.reset(FAR);
    found = taken(it.feed("a\xFF" "b\xC0"));
    expect(found.size() == 4 && found[3] == nody::located{FAR + 3, 1, 0, kind::non_utf8_byte} && found[1].offset == FAR + 1, "offsets that go over 2^32");
    nody::decoder last(nody::encoding::utf8, UINT64_MAX);
    expect(taken(last.feed("a\xFF")) == std::vector<nody::located>{{UINT64_MAX, 1, U'a', kind::ok}, {0, 1, 0, kind::non_utf8_byte}} && last.offset() == 1, "offsets modulo 2^64");
}

static void try_decoder_of_units() {
    using nody::kind;
    nody::decoder it(nody::encoding::utf16be);
    expect(taken(it.feed("\xD8\x3D\xDE")).empty() && it.held() == 3 && it.offset() == 0, "what is held of UTF-16");
    expect(taken(it.feed("\x00\xDC"sv)) == std::vector<nody::located>{{0, 4, U'\U0001F600', kind::ok}} && it.held() == 1, "a pair of two parts");
    expect(taken(it.feed_faults("\x00\x00"sv)) == std::vector<nody::located>{{4, 2, 0, kind::unexpected_trailing_surrogate}}, "a trailing surrogate alone, of two parts");
    expect(taken(it.finish_faults()) == std::vector<nody::located>{{6, 1, 0, kind::incomplete}} && it.offset() == 7, "a single byte at the end");
    nody::decoder refused(static_cast<nody::encoding>(3));
    auto part = refused.feed("a");
    nody::located room[1];
    expect(part.begin() == part.end() && part.rest().size() == 1, "an encoding that there is none of");
    expect(refused.feed_into("a", room, 1).status == nody::status::refused && refused.finish_into(room, 1).status == nody::status::refused, "the same, into a room");
}

static void try_decoder_faults() {
    using nody::kind;
    std::string text = "h\xC3\xA9\xE2\x82" + std::string(100000, 'A') + "\xF0\x9F";
    nody::decoder it(nody::encoding::utf8);
    std::vector<nody::located> found;
    for (std::size_t at = 0; at < text.size(); at += 4) join(found, taken(it.feed_faults(std::string_view(text).substr(at, 4))));
    expect(found == std::vector<nody::located>{{3, 1, 0, kind::interrupted_sequence}, {4, 1, 0, kind::unexpected_continuation_byte}} && it.held() == 2, "faults of parts");
    expect(taken(it.finish_faults()) == std::vector<nody::located>{{100005, 1, 0, kind::too_few_bytes}, {100006, 1, 0, kind::unexpected_continuation_byte}}, "faults at the end");
}

static void try_decoder_moved() {
    nody::decoder one(nody::encoding::utf8, 7);
    expect(taken(one.feed("a\xE2\x82")).size() == 1, "what is held");
    nody::decoder copy = one.copy(), two = std::move(one);
    expect(one.held() == 0 && one.offset() == 0 && two.held() == 2 && two.offset() == 8, "a decoder that was moved is as new"); // NOLINT
    expect(taken(one.feed("\xAC"))[0].kind == nody::kind::unexpected_continuation_byte, "and forgot what was held");
    expect(taken(two.feed("\xAC")) == std::vector<nody::located>{{8, 3, U'\u20AC', nody::kind::ok}}, "what was held moved");
    expect(taken(copy.feed("!"))[0].kind == nody::kind::interrupted_sequence && copy.offset() == 11 && two.offset() == 11, "a copy goes on by itself");
    expect(taken(copy.feed("\xE2\x82")).empty(), "the copy holds bytes");
    two = std::move(copy);
    expect(copy.held() == 0 && two.held() == 2 && two.offset() == 11, "assigned"); // NOLINT
    nody::decoder &same = two;
    two = std::move(same);
    expect(two.held() == 2 && two.offset() == 11, "assigned to itself");
    two.reset();
    expect(two.held() == 0 && two.offset() == 0, "reset");
}

// A loop that is left, and one that throws: the decoder is after the piece at hand, and what was not read is the rest.
static void try_decoder_left() {
    nody::decoder it(nody::encoding::utf8);
    expect(taken(it.feed("\xF0\x9F")).empty(), "held before");
    std::string text = "AB\xE2\x82\xAC" "C";
    auto part = it.feed(text);
    for (const nody::located &piece : part)
        if (piece.offset == 0) break;
    expect(it.offset() == 1 && it.held() == 1 && part.rest().size() == text.size(), "left at a byte that was held");
    auto again = it.feed(part.rest());
    try {
        for (const nody::located &piece : again)
            if (piece.scalar == U'A') throw 1;
    } catch (int) {
    }
    expect(it.offset() == 3 && it.held() == 0 && again.rest().size() == text.size() - 1, "left by an exception");
    nody::decoder copy = it.copy();
    std::vector<nody::located> want = {{3, 1, U'B', nody::kind::ok}, {4, 3, U'\u20AC', nody::kind::ok}, {7, 1, U'C', nody::kind::ok}};
    expect(taken(it.feed(again.rest())) == want && taken(copy.feed(again.rest())) == want && it.offset() == 8, "the rest, and the rest by a copy");
    {
        auto unread = it.feed(text);
        expect(unread.rest().size() == text.size() && it.offset() == 8, "a range that nobody goes through");
    }
    expect(it.offset() == 8, "and was dropped");
    auto twice = it.feed(text);
    auto place = twice.begin();
    nody::located before = *place++;
    expect(before.scalar == U'A' && place->scalar == U'B' && twice.begin()->scalar == U'B' && place != twice.end(), "a range has one place");
}

// A range that is moved goes on from the piece at hand; nothing is left of what it was moved from.
static void try_decoder_range_moved() {
    nody::decoder it(nody::encoding::utf8);
    std::string text = "ab\xE2\x82\xAC" "c\xF0", more = "x";
    expect(taken(it.feed("\xC3")).empty(), "a byte is held");
    auto one = it.feed(text);
    auto fresh = std::move(one);
    expect(one.rest().size() == 0 && one.begin() == one.end() && fresh.rest().size() == text.size() && it.offset() == 0, "a range that is moved before it is begun"); // NOLINT
    auto place = fresh.begin();
    ++place;
    auto two = std::move(fresh);
    expect(two.begin()->scalar == U'a' && two.rest().size() == text.size() - 1 && it.offset() == 2 && fresh.begin() == fresh.end(), "a range that is moved at a piece"); // NOLINT
    expect(taken(it.feed(more)).size() == 1, "the decoder is fed between");
    auto &same = two;
    two = std::move(same);
    std::vector<nody::located> left = taken(std::move(two));
    expect(left.size() == 4 && left[0].scalar == U'a' && left[1].scalar == U'b' && left[1].offset == 3 && left[3].offset == 7 && it.held() == 1 && it.offset() == 8, "and goes on from there");
    one = it.finish();
    two = std::move(one);
    expect(taken(two).size() == 1 && it.held() == 0 && taken(one).empty(), "the end, assigned to another range"); // NOLINT
}

// Who feeds the decoder inside of a loop: these bytes come after the piece at hand, and the rest of the part after them.
static void try_decoder_inside() {
    nody::decoder it(nody::encoding::utf8);
    std::string order, more = "xy\xC3", text = "a\xE2\x82\xAC\xA9" "b";
    auto put = [&](const nody::located &piece) { order += piece.is_ok() ? std::to_string(static_cast<unsigned>(piece.scalar)) + " " : std::string(nody::name(piece.kind)) + " "; };
    for (const nody::located &piece : it.feed(text)) {
        put(piece);
        if (piece.scalar == 0x20AC)
            for (const nody::located &inner : it.feed(more)) put(inner);
    }
    expect(order == "97 8364 120 121 233 98 " && it.offset() == 9, "fed between two pieces: what is held goes on with the rest of the part");
    order.clear();
    for (const nody::located &piece : it.feed("\xE2\x82" "c")) {
        put(piece);
        if (piece.kind == nody::kind::interrupted_sequence) {
            nody::located room[4];
            expect(it.held() == 0 && it.feed_into("d", room, 4).written == 1 && room[0].offset == 10, "into a room between two pieces");
        }
    }
    expect(order == "InterruptedSequence UnexpectedContinuationByte 99 " && it.offset() == 13, "a fault, then a byte of somebody else");
    order.clear();
    for (const nody::located &piece : it.feed("pqr")) {
        put(piece);
        if (piece.scalar == U'p') it.reset(100);
        if (piece.scalar == U'q') expect(piece.offset == 100, "reset between two pieces");
        if (piece.scalar == U'r') it = nody::decoder(nody::encoding::utf16le);
    }
    expect(order == "112 113 114 " && it.offset() == 0 && it.held() == 0, "another decoder in its place");
    order.clear();
    nody::decoder end(nody::encoding::utf8);
    expect(taken(end.feed("\xF0\x9F\x98")).empty(), "three bytes are held");
    for (const nody::located &piece : end.finish()) {
        put(piece);
        if (piece.offset == 0) expect(end.held() == 2 && taken(end.feed("!")).size() == 3, "fed between two pieces of the end");
    }
    expect(order == "TooFewBytes " && end.held() == 0 && end.offset() == 4, "the end, where others took what is left");
}

static void try_decoder_rooms() {
    nody::decoder it(nody::encoding::utf8);
    nody::located room[3] = {{77, 7, 7, nody::kind::incomplete}, {77, 7, 7, nody::kind::incomplete}, {77, 7, 7, nody::kind::incomplete}};
    nody::decoder::progress made = it.feed_into("\xE2\x82", room, 0);
    expect(made.status == nody::status::done && made.read == 2 && made.written == 0, "held without a room");
    made = it.feed_into("A", nullptr, 0);
    expect(made.status == nody::status::full && made.read == 0 && made.written == 0 && it.held() == 2, "full without a room");
    made = it.feed_into("A", room, 2);
    expect(made.status == nody::status::full && made.read == 0 && made.written == 2 && room[1].offset == 1 && room[2].offset == 77, "a room of two");
    made = it.feed_into("A", room, 1);
    expect(made.status == nody::status::done && made.read == 1 && made.written == 1 && room[0].scalar == U'A' && room[1].offset == 1, "the rest");
    expect(it.feed_faults_into("\xF0\x9F\x98", room, 3).written == 0 && it.held() == 3, "faults: held");
    made = it.finish_faults_into(room, 2);
    expect(made.status == nody::status::full && made.written == 2 && it.held() == 1, "the end in a room of two");
    made = it.finish_into(room, 2);
    expect(made.status == nody::status::done && made.written == 1 && it.held() == 0 && it.offset() == 6, "the rest of the end");
    std::vector<nody::located> wide(200);
    std::string text(201, 'a');
    made = it.feed_into(text, wide.data(), wide.size());
    expect(made.status == nody::status::full && made.written == 200 && made.read == 200 && wide[199].offset == 205, "a room of many is filled by one call");
}

// ---- Random bytes: the ranges compared with the calls, and parts compared with the whole

static const std::uint8_t *raw_of(std::string_view text) { return reinterpret_cast<const std::uint8_t *>(text.data()); }

// What a loop over the calls of C gives of a text in parts.
static std::vector<nody::located> parts_by_c(nody::encoding encoding, std::string_view text, std::size_t size, std::size_t room, bool is_faults) {
    std::vector<nody::located> found;
    std::vector<nody_located_t> some(room);
    nody_decoder_t decoder = nody_decoder(static_cast<nody_encoding_t>(encoding));
    decoder.offset = FAR;
    auto put = [&](std::size_t count) {
        for (std::size_t i = 0; i < count; i++) found.push_back({some[i].offset, some[i].len, some[i].scalar, static_cast<nody::kind>(some[i].kind)});
    };
    nody_status_t status;
    std::size_t read = 0, written = 0;
    for (std::size_t at = 0; at < text.size(); at += size) {
        std::string_view part = text.substr(at, size);
        do {
            status = (is_faults ? nody_decoder_feed_faults : nody_decoder_feed)(&decoder, raw_of(part), part.size(), some.data(), room, &read, &written);
            put(written);
            part.remove_prefix(read);
        } while (status == NODY_STATUS_FULL);
    }
    do {
        status = (is_faults ? nody_decoder_finish_faults : nody_decoder_finish)(&decoder, some.data(), room, &written);
        put(written);
    } while (status == NODY_STATUS_FULL);
    return found;
}

// The pieces of a text in parts by ranges. decoder.offset() is the end of the piece at hand; now and then the loop is left and begun again.
static std::vector<nody::located> parts_by_ranges(nody::encoding encoding, std::string_view text, std::size_t size, bool is_faults, unsigned leaves) {
    std::vector<nody::located> found;
    nody::decoder decoder(encoding, FAR);
    unsigned number = 0;
    bool stands = true;
    auto go = [&](auto &range) {
        for (const nody::located &it : range) {
            found.push_back(it);
            stands = stands && decoder.offset() == it.offset + it.length;
            if (leaves && ++number % leaves == 0) return true;
        }
        return false;
    };
    for (std::size_t at = 0; at < text.size(); at += size) {
        nody::bytes part = text.substr(at, size);
        for (bool is_left = true; is_left;) {
            if (is_faults) {
                auto range = decoder.feed_faults(part);
                is_left = go(range);
                part = range.rest();
            } else {
                auto range = decoder.feed(part);
                is_left = go(range);
                part = range.rest();
            }
        }
        stands = stands && part.size() == 0 && decoder.offset() + decoder.held() == FAR + std::min(at + size, text.size());
    }
    join(found, is_faults ? taken(decoder.finish_faults()) : taken(decoder.finish()));
    expect(stands && decoder.offset() == FAR + text.size() && decoder.held() == 0, "a decoder stands after the piece at hand");
    return found;
}

// The pieces of a text in parts, by ranges that are moved now and then.
static std::vector<nody::located> parts_by_moves(nody::encoding encoding, std::string_view text, std::size_t size, bool is_faults, unsigned every) {
    std::vector<nody::located> found;
    nody::decoder decoder(encoding, FAR);
    unsigned number = 0;
    bool stands = true;
    auto go = [&](auto range) {
        for (auto it = range.begin(); it != range.end(); it = range.begin()) {
            found.push_back(*it);
            stands = stands && decoder.offset() == it->offset + it->length;
            if (++number % every == 0) {
                auto other = std::move(range);
                range = std::move(other);
                it = range.begin();
            }
            ++it;
        }
        stands = stands && range.rest().size() == 0;
    };
    for (std::size_t at = 0; at < text.size(); at += size) {
        if (is_faults) go(decoder.feed_faults(text.substr(at, size)));
        else go(decoder.feed(text.substr(at, size)));
    }
    if (is_faults) go(decoder.finish_faults());
    else go(decoder.finish());
    expect(stands && decoder.offset() == FAR + text.size() && decoder.held() == 0, "a decoder stands after the piece at hand of a range that was moved");
    return found;
}

static std::vector<nody::located> parts_by_rooms(nody::encoding encoding, std::string_view text, std::size_t size, std::size_t room, bool is_faults) {
    std::vector<nody::located> found, some(room);
    nody::decoder decoder(encoding, FAR);
    nody::decoder::progress made;
    auto put = [&] { found.insert(found.end(), some.begin(), some.begin() + static_cast<std::ptrdiff_t>(made.written)); };
    for (std::size_t at = 0; at < text.size(); at += size) {
        std::string_view part = text.substr(at, size);
        do {
            made = is_faults ? decoder.feed_faults_into(part, some.data(), room) : decoder.feed_into(part, some.data(), room);
            put();
            part.remove_prefix(made.read);
        } while (made.status == nody::status::full);
    }
    do {
        made = is_faults ? decoder.finish_faults_into(some.data(), room) : decoder.finish_into(some.data(), room);
        put();
    } while (made.status == nody::status::full);
    return found;
}

// From each piece on a copy, which is fed the rest of the part and what follows, gives the pieces that are left.
static void try_copies(nody::encoding encoding, std::string_view text, std::size_t size, const std::vector<nody::located> &want) {
    nody::decoder decoder(encoding, FAR);
    std::size_t number = 0;
    bool is_same = true;
    for (std::size_t at = 0; at < text.size(); at += size) {
        std::string_view part = text.substr(at, size), after = text.substr(std::min(at + size, text.size()));
        auto range = decoder.feed(part);
        for (const nody::located &it : range) {
            is_same = is_same && it == want[number++];
            nody::decoder copy = decoder.copy();
            std::vector<nody::located> left = taken(copy.feed(range.rest()));
            join(left, taken(copy.feed(after)));
            join(left, taken(copy.finish()));
            is_same = is_same && std::equal(left.begin(), left.end(), want.begin() + static_cast<std::ptrdiff_t>(number), want.end());
        }
    }
    expect(is_same, "a copy at each piece goes on from there");
}

// The bytes of a text that is damaged, in an encoding.
static std::string damaged(std::mt19937 &random, nody::encoding encoding, unsigned count) {
    const std::string_view parts[] = {"a", "\n", "\xC3\xA9", "\xE2\x82\xAC", "\xF0\x9F\x98\x80", "\xE2", "\x82", "\xED\xA0", "\xFF", "\xF4\x90"};
    const std::string_view units[] = {"a\0"sv, "\0a"sv, "\x3D\xD8\0\xDE"sv, "\xD8\x3D\xDE\0"sv, "\xD8"sv, "\xDC\0"sv, "\0\xDC"sv, "\0\xD8"sv, "\xAC\x20"sv, "b"sv};
    std::string text;
    bool is_plain = random() % 3 == 0;
    for (; count > 0; count--) text += is_plain && random() % 40 ? (encoding == nody::encoding::utf8 ? "a"sv : encoding == nody::encoding::utf16le ? "a\0"sv : "\0a"sv) : encoding == nody::encoding::utf8 ? parts[random() % 10] : units[random() % 10];
    return text;
}

static void try_parts() {
    std::mt19937 random(28);
    for (unsigned round = 0; round < 1500; round++) {
        nody::encoding encoding = static_cast<nody::encoding>(round % 3);
        bool is_faults = round % 2 != 0;
        std::string text = damaged(random, encoding, static_cast<unsigned>(random()) % (round % 30 ? 60 : 6000));
        const std::vector<nody::located> whole = parts_by_c(encoding, text, SIZE_MAX / 2, 100, is_faults);
        for (std::size_t size : {1U, 2U, 3U, 7U, 4096U}) {
            for (std::size_t room : {1U, 2U, 32U, 100U}) {
                expect(parts_by_c(encoding, text, size, room, is_faults) == whole, "parts by the calls of C");
                expect(parts_by_rooms(encoding, text, size, room, is_faults) == whole, "parts into rooms");
            }
            for (unsigned leaves : {0U, 1U, 2U, 5U, 33U}) expect(parts_by_ranges(encoding, text, size, is_faults, leaves) == whole, "parts by ranges");
            for (unsigned every : {1U, 2U, 40U}) expect(parts_by_moves(encoding, text, size, is_faults, every) == whole, "parts by ranges that are moved");
            if (!is_faults && round % 10 == 0 && text.size() < 200) try_copies(encoding, text, size, whole);
        }
    }
}

static std::vector<nody::piece> faults_by_c(std::string_view text) {
    std::vector<nody::piece> found;
    nody_bytes_t left = nody_bytes(reinterpret_cast<const std::uint8_t *>(text.data()), text.size());
    nody_located_t room[3];
    std::uint64_t offset = 0;
    while (std::size_t count = nody_utf8_faults(&left, &offset, room, 3))
        for (std::size_t i = 0; i < count; i++) found.push_back({static_cast<std::size_t>(room[i].offset), room[i].len, 0, static_cast<nody::kind>(room[i].kind)});
    return found;
}

// How many bytes a decoder holds that was fed the text.
static std::size_t held_by_c(std::string_view text) {
    nody_decoder_t decoder = nody_decoder(NODY_UTF8);
    nody_located_t room[100];
    std::size_t read, written;
    nody_status_t status = nody_decoder_feed(&decoder, reinterpret_cast<const std::uint8_t *>(text.data()), text.size(), room, 100, &read, &written);
    return status == NODY_STATUS_DONE ? text.size() - static_cast<std::size_t>(decoder.offset) : SIZE_MAX;
}

static void try_random() {
    std::mt19937 random(11);
    auto below = [&](unsigned most) { return static_cast<unsigned>(random() % most); };
    const std::string_view parts[] = {"a", "\n", "\xC3\xA9", "\xE2\x82\xAC", "\xF0\x9F\x98\x80", "\xE2", "\x82", "\xED\xA0", "\xFF", "\xF4\x90"};
    for (int round = 0; round < 2000; round++) {
        std::string text, joined, out;
        for (unsigned i = below(20); i > 0; i--) text += parts[below(10)];
        nody_bytes_t left = nody_bytes(reinterpret_cast<const std::uint8_t *>(text.data()), text.size());
        bool is_same = true;
        for (const nody::piece &it : nody::pieces(text)) {
            nody_piece_t want = nody_utf8_next(&left);
            is_same = is_same && it.length == want.len && it.scalar == want.scalar && static_cast<int>(it.kind) == static_cast<int>(want.kind);
            is_same = is_same && it.offset + it.length == text.size() - left.len;
            joined += text.substr(it.offset, it.length);
        }
        std::vector<nody::piece> front = all(text), back;
        for (const nody::piece &it : nody::pieces_back(text)) back.insert(back.begin(), it);
        for (std::size_t i = 0; i < front.size() && i < back.size(); i++) is_same = is_same && front[i].offset == back[i].offset && front[i].length == back[i].length;
        expect(is_same && left.len == 0 && joined == text && front.size() == back.size() && nody::char_count(text) == front.size(), "pieces of random bytes");
        nody::recoder recoder(nody::encoding::utf8, nody::encoding::utf16le);
        for (std::size_t at = 0; at < text.size();) {
            std::size_t len = std::min<std::size_t>(1 + below(5), text.size() - at);
            recoder.feed(std::string_view(text).substr(at, len), out);
            at += len;
        }
        recoder.finish(out);
        expect(out == nody::recode(nody::encoding::utf8, nody::encoding::utf16le, text) && recoder.read() == text.size(), "random bytes in parts");
        auto fault = nody::first_fault(text);
        auto found = std::find_if(front.begin(), front.end(), [](const nody::piece &it) { return !it.is_ok(); });
        expect(fault ? found != front.end() && *fault == *found : found == front.end(), "the first fault of random bytes");
        front.erase(std::remove_if(front.begin(), front.end(), [](const nody::piece &it) { return it.is_ok(); }), front.end());
        auto faults = nody::faults(text);
        expect(std::equal(faults.begin(), faults.end(), front.begin(), front.end()), "the faults of random bytes");
        expect(front == faults_by_c(text), "the faults of random bytes, by nody_utf8_faults");
        expect(nody::undecided_len(nody::encoding::utf8, text) == held_by_c(text), "what is undecided of random bytes");
    }
}

int main() {
    try_spans();
    try_pieces();
    try_texts();
    try_one();
    try_single();
    try_faults();
    try_marks();
    try_undecided();
    try_guesses();
    try_positions();
    try_recode();
    try_recoder();
    try_repairs();
    try_strict_recoder();
    try_decoder();
    try_decoder_of_units();
    try_decoder_faults();
    try_decoder_moved();
    try_decoder_left();
    try_decoder_range_moved();
    try_decoder_inside();
    try_decoder_rooms();
    try_random();
    try_parts();
    std::printf("%lu passed, %lu failed\n", passed, failed);
    return failed != 0;
}
