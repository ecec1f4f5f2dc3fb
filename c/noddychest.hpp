// Noddychest for C++17 and later: noddychest.h with the types of C++. Header only, over the same library.
//
// WORDS are those of noddychest.h: a piece is a character, or a fault: one invalid byte, or one invalid unit of UTF-16.
//
// CALLS, all in the namespace nody.
//     all pieces   pieces, pieces_back: ranges for `for`, over UTF-8 (nody::bytes) or units of UTF-16 (std::u16string_view)
//     one piece    first, last, encode
//     all faults   faults: ranges without the characters
//     valid?       is_valid, valid_up_to, first_fault
//     count        char_count, offset_of, number_of
//     edit         changed_range
//     divide       boundary_before, boundary_after, undecided_len
//     encoding     encoding_of_bom: by a byte order mark; survey_of, guess_of, guesses_of, surveyor: by what all bytes have
//     recode       recode, recode_strict, recode_lossy, recode_repair, to_utf8, to_utf16, recoded_len; repair: a table
//     in parts     recoder; decoder: the pieces, or only the faults, with their offsets; position: the line and the column
//     messages     name, sentence
//     library      supported, version
//
// BYTES. Text in bytes is taken as nody::bytes, which is made of a literal and of all that has data() and size() over elements of one byte:
// a std::string, std::string_view or std::pmr::string, a std::vector or std::array of char, unsigned char or std::byte, and in C++20 a
// std::span of these, a std::u8string and a std::u8string_view. Like a view it owns nothing: the bytes have to live as long as it is
// used. The input must not alias the string that the output is appended to.
//
// ERRORS. Invalid input throws no exception: calls return a std::optional or an enum. Calls that make a std::string throw what that throws
// (std::bad_alloc, std::length_error), and std::length_error if an encoding is none of enum encoding; the others are noexcept. With
// -fno-exceptions std::abort is called in place of std::length_error. Offsets and lengths count bytes, or units if the text is in units.
#ifndef NODDYCHEST_HPP
#define NODDYCHEST_HPP

#include "noddychest.h"

#include <array>
#include <cstddef>
#include <cstdint>
#include <cstdlib>
#include <iterator>
#include <optional>
#include <stdexcept>
#include <string>
#include <string_view>
#include <type_traits>
#include <utility>
#if defined(__has_include)
#if (__cplusplus >= 202002L || (defined(_MSVC_LANG) && _MSVC_LANG >= 202002L)) && __has_include(<span>)
#include <ranges>
#include <span>
#define NODY_HAS_SPAN 1
#endif
#endif

namespace nody {

// What a piece is: a character, or the reason why a byte or a unit is invalid. noddychest.h says when each is.
enum class kind : std::uint8_t {
    ok = NODY_KIND_OK,
    too_few_bytes = NODY_KIND_TOO_FEW_BYTES,
    non_utf8_byte = NODY_KIND_NON_UTF8_BYTE,
    unexpected_continuation_byte = NODY_KIND_UNEXPECTED_CONTINUATION_BYTE,
    interrupted_sequence = NODY_KIND_INTERRUPTED_SEQUENCE,
    overlong_encoding = NODY_KIND_OVERLONG_ENCODING,
    utf16_reserved_codepoint = NODY_KIND_UTF16_RESERVED_CODEPOINT,
    too_high_codepoint = NODY_KIND_TOO_HIGH_CODEPOINT,
    unexpected_trailing_surrogate = NODY_KIND_UNEXPECTED_TRAILING_SURROGATE,
    unmatched_leading_surrogate = NODY_KIND_UNMATCHED_LEADING_SURROGATE,
    incomplete = NODY_KIND_INCOMPLETE,
};

// The encoding of text in bytes.
enum class encoding : std::uint8_t {
    utf8 = NODY_UTF8,
    utf16le = NODY_UTF16LE,
    utf16be = NODY_UTF16BE,
    utf16_native = NODY_UTF16_NATIVE,
};

// Whether a call that fills a buffer wrote all.
enum class status : std::uint8_t {
    done = NODY_STATUS_DONE,   // all of the input was read, and its output written
    full = NODY_STATUS_FULL,   // the next character, or piece, does not fit
    refused = NODY_STATUS_REFUSED, // an encoding is none of enum encoding
    fault = NODY_STATUS_FAULT, // a strict call stopped at a fault
};

// What an input most likely is. noddychest.h says when each is.
enum class guess : std::uint8_t {
    ascii = NODY_GUESS_ASCII,
    utf8 = NODY_GUESS_UTF8,
    utf8_marked = NODY_GUESS_UTF8_MARKED,
    utf8_cut = NODY_GUESS_UTF8_CUT,
    utf8_mixed = NODY_GUESS_UTF8_MIXED,
    utf8_twice = NODY_GUESS_UTF8_TWICE,
    utf8_surrogates = NODY_GUESS_UTF8_SURROGATES,
    utf16le = NODY_GUESS_UTF16LE,
    utf16be = NODY_GUESS_UTF16BE,
    utf16le_marked = NODY_GUESS_UTF16LE_MARKED,
    utf16be_marked = NODY_GUESS_UTF16BE_MARKED,
    utf32 = NODY_GUESS_UTF32,
    windows1252 = NODY_GUESS_WINDOWS1252,
    other_8bit = NODY_GUESS_OTHER_8BIT,
    binary = NODY_GUESS_BINARY,
};

// What a guess says, for people.
inline std::string_view text_of(guess it) noexcept { return nody_guess_text(static_cast<nody_guess_t>(it)); }

// The name of a kind, such as "OverlongEncoding", and a sentence about it.
inline std::string_view name(kind it) noexcept { return nody_kind_name(static_cast<nody_kind_t>(it)); }
inline std::string_view sentence(kind it) noexcept { return nody_kind_sentence(static_cast<nody_kind_t>(it)); }

// A character or a fault, and where it is.
struct piece {
    std::size_t offset = 0;
    std::size_t length = 0;
    char32_t scalar = 0; // the number of the character; 0 for a fault
    nody::kind kind = nody::kind::ok;

    constexpr bool is_ok() const noexcept { return kind == nody::kind::ok; }
    friend constexpr bool operator==(const piece &a, const piece &b) noexcept {
        return a.offset == b.offset && a.length == b.length && a.scalar == b.scalar && a.kind == b.kind;
    }
    friend constexpr bool operator!=(const piece &a, const piece &b) noexcept { return !(a == b); }
};

// A piece of input that comes in parts. Offset and length are in bytes, in UTF-16 too.
struct located {
    std::uint64_t offset = 0; // from the first byte of all input, modulo 2^64
    std::size_t length = 0;   // of a character 1 to 4; of a fault 1, or 2 for a lone surrogate
    char32_t scalar = 0;      // the number of the character; 0 for a fault
    nody::kind kind = nody::kind::ok;

    constexpr bool is_ok() const noexcept { return kind == nody::kind::ok; }
    friend constexpr bool operator==(const located &a, const located &b) noexcept {
        return a.offset == b.offset && a.length == b.length && a.scalar == b.scalar && a.kind == b.kind;
    }
    friend constexpr bool operator!=(const located &a, const located &b) noexcept { return !(a == b); }
};

// A fault at which a strict call stopped.
struct fault {
    std::uint64_t offset = 0; // in bytes, from the first byte of all input
    std::size_t length = 0;
    nody::kind kind = nody::kind::ok;
};

// The encoding that a byte order mark means, and the length of the mark in bytes.
struct bom {
    nody::encoding encoding = nody::encoding::utf8;
    std::size_t length = 0;
};

// A part of a text: the bytes from `start` on, without the one at `end`.
struct byte_range {
    std::size_t start = 0;
    std::size_t end = 0;
};

// What each invalid byte of UTF-8 becomes in the calls whose names end in _repair: a character up to U+FFFF, or nothing. In UTF-16 each fault
// becomes U+FFFD, or nothing if no byte has a character. A repair is a value: it has its own table.
//
//     nody::repair::drop, nody::repair::windows_1252, nody::repair::latin_1
//     auto only_euro = nody::repair::from([](std::uint8_t byte) { return byte == 0x80 ? std::optional<char32_t>(0x20AC) : std::nullopt; });
class repair {
public:
    static const repair drop, windows_1252, latin_1; // noddychest.h says what these are

    // The table of a function, which is called with 0x80, 0x81 and so on up to 0xFF, or of an array, whose entries are for these bytes:
    // what has size() and [], as a std::array, a std::vector or a std::span. Each gives a char32_t, or a std::optional<char32_t>, of which
    // std::nullopt means nothing. A byte after the end of the array becomes nothing too. The result is empty if a number is a surrogate or
    // above U+FFFF, or if the array has more than 128 entries. What the function throws comes through.
    template <class Characters>
    [[nodiscard]] static std::optional<repair> from(Characters &&characters) {
        repair made(NODY_REPAIR_TABLE);
        if constexpr (!std::is_invocable_v<Characters &, std::uint8_t>) {
            if (characters.size() > most) return std::nullopt;
            made.len_ = static_cast<std::size_t>(characters.size());
        } else {
            made.len_ = most;
        }
        bool is_empty = true;
        for (std::size_t i = 0; i < made.len_; i++) {
            std::optional<char32_t> scalar;
            if constexpr (std::is_invocable_v<Characters &, std::uint8_t>) scalar = characters(static_cast<std::uint8_t>(0x80 + i));
            else scalar = characters[i];
            if (scalar && (*scalar > 0xFFFF || (*scalar >= 0xD800 && *scalar <= 0xDFFF))) return std::nullopt;
            made.table_[i] = scalar ? static_cast<std::uint32_t>(*scalar) : nothing;
            is_empty = is_empty && !scalar;
        }
        return is_empty ? drop : made;
    }

    // For the calls of noddychest.h. The table has to live as long as it is used.
    constexpr nody_repair_t number() const noexcept { return number_; }
    constexpr const std::uint32_t *table() const noexcept { return table_.data(); }
    constexpr std::size_t table_len() const noexcept { return len_; }

private:
    static constexpr std::size_t most = 128;
    static constexpr std::uint32_t nothing = 0xFFFFFFFF;
    explicit constexpr repair(nody_repair_t number) noexcept : number_(number) {}

    nody_repair_t number_;
    std::size_t len_ = 0;
    std::array<std::uint32_t, most> table_{};
};

inline constexpr repair repair::drop = repair(NODY_REPAIR_DROP);
inline constexpr repair repair::windows_1252 = repair(NODY_REPAIR_WINDOWS_1252);
inline constexpr repair repair::latin_1 = repair(NODY_REPAIR_LATIN_1);

namespace detail {

// Types of one byte, of which text may be made.
template <class Element> struct has_one_byte : std::bool_constant<sizeof(Element) == 1> {};
template <class Element> inline constexpr bool is_byte =
    std::conjunction_v<std::disjunction<std::is_integral<Element>, std::is_enum<Element>>, std::negation<std::is_same<std::remove_cv_t<Element>, bool>>, has_one_byte<Element>>;

// What data() of a text points to: of a string, a vector, an array, a span, and what is like these.
template <class Text> using element_of = std::remove_pointer_t<decltype(std::declval<Text &>().data())>;

// Whether a text has data() and size(), over bytes.
template <class Text, class = void, class = void> struct has_bytes : std::false_type {};
template <class Text>
struct has_bytes<Text, std::enable_if_t<std::is_convertible_v<decltype(std::declval<const Text &>().size()), std::size_t>>, std::enable_if_t<is_byte<element_of<const Text>>>>
    : std::true_type {};

// Whether a text has no such data() and size(), but converts to a std::string_view.
template <class Text> struct is_shown : std::conjunction<std::is_class<Text>, std::negation<has_bytes<Text>>, std::is_convertible<const Text &, std::string_view>> {};

} // namespace detail

// Text in bytes, whatever type it has.
class bytes {
public:
    constexpr bytes() noexcept = default;
    constexpr bytes(const std::uint8_t *data, std::size_t size) noexcept : data_(data), size_(size) {}
    bytes(const char *data, std::size_t size) noexcept : bytes(reinterpret_cast<const std::uint8_t *>(data), size) {}
    bytes(const std::byte *data, std::size_t size) noexcept : bytes(reinterpret_cast<const std::uint8_t *>(data), size) {}
    bytes(const char *text) noexcept : bytes(std::string_view(text)) {}
#ifdef __cpp_lib_char8_t
    bytes(const char8_t *text) noexcept : bytes(std::u8string_view(text)) {}
#endif
    template <class Text, std::enable_if_t<detail::has_bytes<Text>::value, int> = 0>
    bytes(const Text &text) noexcept : bytes(reinterpret_cast<const std::uint8_t *>(text.data()), text.size()) {}
    template <class Text, std::enable_if_t<detail::is_shown<Text>::value, int> = 0>
    bytes(const Text &text) noexcept(noexcept(static_cast<std::string_view>(text))) : bytes(static_cast<std::string_view>(text)) {}
    constexpr const std::uint8_t *data() const noexcept { return data_; }
    constexpr std::size_t size() const noexcept { return size_; }

private:
    const std::uint8_t *data_ = nullptr;
    std::size_t size_ = 0;
};

namespace detail {

inline nody_encoding_t c(encoding it) noexcept { return static_cast<nody_encoding_t>(it); }

inline std::optional<std::size_t> below(std::size_t offset, std::size_t size) noexcept { return offset < size ? std::optional(offset) : std::nullopt; }

inline std::uint8_t *bytes_of(std::string &text) noexcept { return reinterpret_cast<std::uint8_t *>(text.data()); }

// How UTF-8, and units of UTF-16, are taken piece by piece.
struct utf8 {
    using view = bytes;
    using cursor = nody_bytes_t;
    static cursor open(view text) noexcept { return nody_bytes(text.data(), text.size()); }
    static nody_piece_t next(cursor *left) noexcept { return nody_utf8_next(left); }
    static nody_piece_t next_back(cursor *left) noexcept { return nody_utf8_next_back(left); }
    static void pass_text(cursor *left) noexcept {
        std::size_t len = nody_utf8_valid_up_to(left->bytes, left->len);
        left->bytes += len;
        left->len -= len;
    }
};

struct utf16 {
    using view = std::u16string_view;
    using cursor = nody_units_t;
    // (char16_t is another type than uint16_t, with the same values; the library was compiled apart, and reads what is there)
    static cursor open(view text) noexcept { return nody_units(reinterpret_cast<const std::uint16_t *>(text.data()), text.size()); }
    static nody_piece_t next(cursor *left) noexcept { return nody_utf16_next(left); }
    static nody_piece_t next_back(cursor *left) noexcept { return nody_utf16_next_back(left); }
    static void pass_text(cursor *left) noexcept {
        std::size_t len = nody_utf16_valid_up_to(left->units, left->len);
        left->units += len;
        left->len -= len;
    }
};

// Which pieces a range has, and from which end it takes them.
enum class way { front, back, faults };

template <class Code, way taken> nody_piece_t take(typename Code::cursor *left) noexcept {
    nody_piece_t here = taken == way::back ? Code::next_back(left) : Code::next(left);
    if (taken != way::faults || here.kind != NODY_KIND_OK) return here;
    Code::pass_text(left);
    return Code::next(left);
}

inline piece at(const nody_piece_t &it, std::size_t offset) noexcept {
    return {offset, it.len, static_cast<char32_t>(it.scalar), static_cast<kind>(it.kind)};
}

inline std::optional<piece> some(const nody_piece_t &it, std::size_t offset) noexcept {
    return it.kind == NODY_KIND_NONE ? std::nullopt : std::optional<piece>(at(it, offset));
}

// An iterator of a range of pieces, which holds its piece.
template <class Code, way taken> class iterator {
public:
    using iterator_category = std::input_iterator_tag;
#ifdef NODY_HAS_SPAN
    using iterator_concept = std::forward_iterator_tag;
#endif
    using value_type = piece;
    using difference_type = std::ptrdiff_t;
    using pointer = const piece *;
    using reference = piece; // (no reference: it would dangle after the iterator)

    iterator() noexcept : iterator(typename Code::view()) {}
    explicit iterator(typename Code::view text) noexcept : left_(Code::open(text)), whole_(text.size()) { take(); }
    reference operator*() const noexcept { return piece_; }
    pointer operator->() const noexcept { return &piece_; }
    iterator &operator++() noexcept {
        take();
        return *this;
    }
    iterator operator++(int) noexcept {
        iterator before = *this;
        take();
        return before;
    }
    // Two iterators of one range are equal if the same length is left, the piece itself included.
    friend bool operator==(const iterator &a, const iterator &b) noexcept { return a.left_.len + a.piece_.length == b.left_.len + b.piece_.length; }
    friend bool operator!=(const iterator &a, const iterator &b) noexcept { return !(a == b); }

private:
    void take() noexcept {
        // (field by field: a compiler that copies a piece made elsewhere waits for it)
        nody_piece_t here = detail::take<Code, taken>(&left_);
        piece_.offset = taken == way::back ? left_.len : whole_ - left_.len - here.len;
        piece_.length = here.len;
        piece_.scalar = static_cast<char32_t>(here.scalar);
        piece_.kind = static_cast<kind>(here.kind);
    }
    typename Code::cursor left_;
    std::size_t whole_;
    piece piece_;
};

template <class Code, way taken> class range {
public:
    explicit range(typename Code::view text) noexcept : text_(text) {}
    iterator<Code, taken> begin() const noexcept { return iterator<Code, taken>(text_); }
    iterator<Code, taken> end() const noexcept { return {}; }

private:
    typename Code::view text_;
};

// Whether a text has its bytes inside: an array has, and so has a type whose data() gives constants only if the object is constant. (a view gives the
// same type in both cases)
template <class Text, class = void> struct has_bytes_inside : std::is_array<Text> {};
template <class Text> struct has_bytes_inside<Text, std::void_t<element_of<Text>, element_of<const Text>>> : std::negation<std::is_same<element_of<Text>, element_of<const Text>>> {};
template <class Element, std::size_t size> struct has_bytes_inside<std::array<Element, size>, void> : std::true_type {};

// Calls that would keep a view of a temporary text are rejected: of a string, of any type that gives something back when it goes, since a view
// does not, and of what has the bytes inside. (Text is a reference if it is no temporary)
template <class Text> using if_temporary =
    std::enable_if_t<!std::is_reference_v<Text> && (!std::is_trivially_destructible_v<Text> || has_bytes_inside<std::remove_cv_t<Text>>::value)>;

} // namespace detail

// ---- All pieces

// The pieces of UTF-8, or of units of UTF-16, from the front.
//
//     for (const nody::piece &it : nody::pieces(text))
//         if (!it.is_ok()) report(it.offset, nody::sentence(it.kind));
//
// A temporary that owns its text, as a string, a vector or an array, is rejected: the range has only a view of it.
inline detail::range<detail::utf8, detail::way::front> pieces(bytes text) noexcept { return detail::range<detail::utf8, detail::way::front>(text); }
inline detail::range<detail::utf16, detail::way::front> pieces(std::u16string_view text) noexcept { return detail::range<detail::utf16, detail::way::front>(text); }
template <class Text, class = detail::if_temporary<Text>> void pieces(Text &&) = delete;

// All pieces backward. Their offsets are those of pieces(). The kind of a fault is that of a text which ends with its byte: E2 in E2 82 41 is
// too_few_bytes here, and interrupted_sequence in pieces(). For the kind in the whole text, call first() on the text from it.offset on.
inline detail::range<detail::utf8, detail::way::back> pieces_back(bytes text) noexcept { return detail::range<detail::utf8, detail::way::back>(text); }
inline detail::range<detail::utf16, detail::way::back> pieces_back(std::u16string_view text) noexcept { return detail::range<detail::utf16, detail::way::back>(text); }
template <class Text, class = detail::if_temporary<Text>> void pieces_back(Text &&) = delete;

// Only the faults, from the front: the pieces that are no characters, with the same offsets and kinds. Text between them is passed as fast
// as it is validated, and no further than to the fault that is asked for.
// (where much is invalid, nody_utf8_faults of noddychest.h is faster: it fills an array)
//
//     for (const nody::piece &it : nody::faults(text)) report(it.offset, nody::sentence(it.kind));
inline detail::range<detail::utf8, detail::way::faults> faults(bytes text) noexcept { return detail::range<detail::utf8, detail::way::faults>(text); }
inline detail::range<detail::utf16, detail::way::faults> faults(std::u16string_view text) noexcept { return detail::range<detail::utf16, detail::way::faults>(text); }
template <class Text, class = detail::if_temporary<Text>> void faults(Text &&) = delete;

// ---- One piece

// The first piece, and the last one, or nothing if the text is empty. The kind of the last one is determined as if nothing came after the text.
//
//     while (auto it = nody::last(text); it && it->scalar == U' ') text.remove_suffix(it->length);
inline std::optional<piece> first(bytes text) noexcept { return detail::some(nody_utf8_first(text.data(), text.size()), 0); }
inline std::optional<piece> first(std::u16string_view text) noexcept {
    return detail::some(nody_utf16_first(reinterpret_cast<const std::uint16_t *>(text.data()), text.size()), 0);
}
inline std::optional<piece> last(bytes text) noexcept {
    nody_piece_t it = nody_utf8_last(text.data(), text.size());
    return detail::some(it, text.size() - it.len);
}
inline std::optional<piece> last(std::u16string_view text) noexcept {
    nody_piece_t it = nody_utf16_last(reinterpret_cast<const std::uint16_t *>(text.data()), text.size());
    return detail::some(it, text.size() - it.len);
}

// Adds a character to `out`, as UTF-8 or as UTF-16. If the number is no character, which is so of a surrogate and above 10FFFF, nothing is
// added, and the result is false.
//
//     std::string out;
//     if (!nody::encode(0x20AC, out)) refuse();
inline bool encode(char32_t scalar, std::string &out) {
    std::uint8_t buffer[4];
    std::size_t len = nody_utf8_encode(scalar, buffer, sizeof buffer);
    out.append(buffer, buffer + len);
    return len != 0;
}
inline bool encode(char32_t scalar, std::u16string &out) {
    std::uint16_t buffer[2];
    std::size_t len = nody_utf16_encode(scalar, buffer, 2);
    out.append(buffer, buffer + len);
    return len != 0;
}

// ---- Whether text is valid

// The offset of the first fault, or the length of the text if it has none.
inline std::size_t valid_up_to(bytes text) noexcept {
    return nody_utf8_valid_up_to(text.data(), text.size());
}
inline std::size_t valid_up_to(std::u16string_view text) noexcept {
    return nody_utf16_valid_up_to(reinterpret_cast<const std::uint16_t *>(text.data()), text.size());
}
inline std::size_t valid_up_to(encoding from, bytes text) noexcept { return nody_utf16_bytes_valid_up_to(detail::c(from), text.data(), text.size()); }

inline bool is_valid(bytes text) noexcept { return valid_up_to(text) == text.size(); }
inline bool is_valid(std::u16string_view text) noexcept { return valid_up_to(text) == text.size(); }
inline bool is_valid(encoding from, bytes text) noexcept { return valid_up_to(from, text) == text.size(); }

// The first fault, or nothing if the text is valid.
//
//     if (auto it = nody::first_fault(text)) report(it->offset, nody::sentence(it->kind));
inline std::optional<piece> first_fault(bytes text) noexcept {
    std::size_t offset = valid_up_to(text);
    if (offset == text.size()) return std::nullopt;
    return detail::at(nody_utf8_first(text.data() + offset, text.size() - offset), offset);
}
inline std::optional<piece> first_fault(std::u16string_view text) noexcept {
    std::size_t offset = valid_up_to(text);
    if (offset == text.size()) return std::nullopt;
    return detail::at(nody_utf16_first(reinterpret_cast<const std::uint16_t *>(text.data()) + offset, text.size() - offset), offset);
}

// The number of pieces.
inline std::size_t char_count(bytes text) noexcept {
    return nody_utf8_char_count(text.data(), text.size());
}
inline std::size_t char_count(std::u16string_view text) noexcept {
    return nody_utf16_char_count(reinterpret_cast<const std::uint16_t *>(text.data()), text.size());
}

inline std::size_t char_count(encoding from, bytes text) noexcept { return nody_char_count(detail::c(from), text.data(), text.size()); }

// The offset of the piece with a number, counted from 0, or nothing if the text has no more pieces.
//
//     std::string_view rest = line.substr(nody::offset_of(line, 80).value_or(line.size())); // what follows the first 80
inline std::optional<std::size_t> offset_of(bytes text, std::size_t number) noexcept {
    return detail::below(nody_utf8_offset_of(text.data(), text.size(), number), text.size());
}
inline std::optional<std::size_t> offset_of(std::u16string_view text, std::size_t number) noexcept {
    return detail::below(nody_utf16_offset_of(reinterpret_cast<const std::uint16_t *>(text.data()), text.size(), number), text.size());
}
inline std::optional<std::size_t> offset_of(encoding from, bytes text, std::size_t number) noexcept {
    return detail::below(nody_offset_of(detail::c(from), text.data(), text.size(), number), text.size());
}

// How many pieces begin before an offset: if a piece begins at it, its number, counted from 0. All of them if the offset is above the size.
inline std::size_t number_of(bytes text, std::size_t offset) noexcept {
    return nody_utf8_number_of(text.data(), text.size(), offset);
}
inline std::size_t number_of(std::u16string_view text, std::size_t offset) noexcept {
    return nody_utf16_number_of(reinterpret_cast<const std::uint16_t *>(text.data()), text.size(), offset);
}
inline std::size_t number_of(encoding from, bytes text, std::size_t offset) noexcept {
    return nody_number_of(detail::c(from), text.data(), text.size(), offset);
}

// ---- Where text may be divided

// The last boundary up to an offset, and the first one from it on. noddychest.h says what a boundary is.
//
//     std::string_view short_name = name.substr(0, nody::boundary_before(nody::encoding::utf8, name, 255));
inline std::size_t boundary_before(encoding from, bytes text, std::size_t offset) noexcept {
    return nody_boundary_before(detail::c(from), text.data(), text.size(), offset);
}
inline std::size_t boundary_after(encoding from, bytes text, std::size_t offset) noexcept {
    return nody_boundary_after(detail::c(from), text.data(), text.size(), offset);
}
inline std::size_t boundary_before(std::u16string_view text, std::size_t offset) noexcept {
    return nody_utf16_boundary_before(reinterpret_cast<const std::uint16_t *>(text.data()), text.size(), offset);
}
inline std::size_t boundary_after(std::u16string_view text, std::size_t offset) noexcept {
    return nody_utf16_boundary_after(reinterpret_cast<const std::uint16_t *>(text.data()), text.size(), offset);
}

// The part of a text outside of which no piece changes if the bytes from `start` up to `end` are replaced by any others: what to decode
// again after an edit. The text is that after the edit, or that before it: noddychest.h says more.
//
//     text.insert(at, "x");
//     nody::byte_range changed = nody::changed_range(nody::encoding::utf8, text, at, at + 1);
inline byte_range changed_range(encoding from, bytes text, std::size_t start, std::size_t end) noexcept {
    nody_range_t it = nody_changed_range(detail::c(from), text.data(), text.size(), start, end);
    return byte_range{it.start, it.end};
}

// How many bytes at the end of some bytes, at most three, depend on the bytes that follow. Keep them back of a block of a large input, and
// put them before the next block. noddychest.h says which they are. The text should begin at a boundary.
//
//     std::size_t whole = block.size() - nody::undecided_len(nody::encoding::utf8, block);
inline std::size_t undecided_len(encoding from, bytes text) noexcept { return nody_undecided_len(detail::c(from), text.data(), text.size()); }

// ---- Which encoding

// The byte order mark that begins the bytes, or nothing if none does. Little-endian UTF-32 is taken for UTF-16, whose mark it begins with.
//
//     nody::bom mark = nody::encoding_of_bom(text).value_or(nody::bom{}); // (if there is none, UTF-8)
//     text.remove_prefix(mark.length);
inline std::optional<bom> encoding_of_bom(bytes text) noexcept {
    nody_encoding_t told = NODY_UTF8;
    std::size_t len = nody_encoding_of_bom(text.data(), text.size(), &told);
    if (len == 0) return std::nullopt;
    return bom{static_cast<encoding>(told), len};
}

// What was counted in an input: noddychest.h says what each count is.
using survey = nody_survey_t;

// Counts what the bytes have.
//
//     if (nody::survey_of(text).utf8.surrogates > 0) read_as_cesu8(text);
inline survey survey_of(bytes text) noexcept {
    survey made;
    nody_survey(text.data(), text.size(), &made);
    return made;
}

// What an input most likely is, by its survey or by its bytes. It is a guess.
//
//     if (nody::guess_of(text) == nody::guess::windows1252) read_as_windows1252(text);
inline guess guess_of(const survey &counted) noexcept { return static_cast<guess>(nody_guess(&counted)); }
inline guess guess_of(bytes text) noexcept { return guess_of(survey_of(text)); }

// One to three guesses, the likeliest first: each says what the input is if those before it are wrong.
class guesses {
public:
    explicit guesses(const survey &counted) noexcept {
        nody_guess_t told[3];
        size_ = nody_guesses(&counted, told, 3);
        for (std::size_t i = 0; i < size_; i++) guesses_[i] = static_cast<guess>(told[i]);
    }

    const guess *begin() const noexcept { return guesses_.data(); }
    const guess *end() const noexcept { return guesses_.data() + size_; }
    std::size_t size() const noexcept { return size_; }
    guess operator[](std::size_t at) const noexcept { return guesses_[at]; }

private:
    std::array<guess, 3> guesses_{};
    std::size_t size_ = 0;
};

// What an input may be, by its survey or by its bytes.
//
//     for (nody::guess it : nody::guesses_of(text)) std::cout << nody::text_of(it) << '\n';
inline guesses guesses_of(const survey &counted) noexcept { return guesses(counted); }
inline guesses guesses_of(bytes text) noexcept { return guesses(survey_of(text)); }

// Surveys input in parts, which may begin and end anywhere: the survey is that of the joined parts. It is a value: a copy goes on from there.
//
//     nody::surveyor surveyor;
//     while (file.read(part.data(), part.size()) || file.gcount() > 0) surveyor.feed({part.data(), std::size_t(file.gcount())});
//     std::cout << nody::text_of(nody::guess_of(surveyor.survey()));
class surveyor {
public:
    surveyor() noexcept : it_(nody_surveyor()) {}

    // Takes the next part.
    void feed(bytes part) noexcept { nody_surveyor_feed(&it_, part.data(), part.size()); }

    // The survey of what was fed so far. You may feed more afterwards.
    nody::survey survey() const noexcept {
        nody::survey made;
        nody_surveyor_survey(&it_, &made);
        return made;
    }

private:
    nody_surveyor_t it_;
};

// ---- Transcoding

// How many bytes recode gives; nothing if a std::size_t cannot hold the number.
inline std::optional<std::size_t> recoded_len(encoding from, encoding to, bytes text) noexcept {
    std::size_t len = nody_recoded_len(detail::c(from), detail::c(to), text.data(), text.size());
    return len == SIZE_MAX ? std::nullopt : std::optional<std::size_t>(len);
}

namespace detail {

[[noreturn]] inline void refuse_length() {
#if defined(__cpp_exceptions) || defined(_CPPUNWIND)
    throw std::length_error("nody: the text is too long, or in no encoding");
#else
    std::abort();
#endif
}

inline std::size_t most_of(encoding from, encoding to, std::size_t len) {
    std::size_t most = nody_recoded_len_max(c(from), c(to), len);
    if (most == SIZE_MAX) refuse_length();
    return most;
}

inline std::size_t len_of(encoding from, encoding to, bytes text) {
    std::optional<std::size_t> len = recoded_len(from, to, text);
    if (!len) refuse_length();
    return *len;
}

// Makes the string longer by as much as there may come, and then as long as what came.
template <class Write> auto append(std::string &out, std::size_t most, Write write) {
    std::size_t had = out.size(), written = 0;
    out.resize(had + most);
    auto told = write(bytes_of(out) + had, most, &written);
    out.resize(had + written);
    return told;
}

} // namespace detail

// Transcodes all of a text. Each fault becomes one U+FFFD.
//
//     std::string utf16 = nody::recode(nody::encoding::utf8, nody::encoding::utf16be, text);
inline std::string recode(encoding from, encoding to, bytes text) {
    std::string out;
    detail::append(out, detail::len_of(from, to, text), [&](std::uint8_t *into, std::size_t capacity, std::size_t *written) {
        return nody_recode(detail::c(from), detail::c(to), text.data(), text.size(), into, capacity, written);
    });
    return out;
}

// Transcodes all of a text, with one U+FFFD for each maximal subpart, as browsers and Python do.
//
//     std::string text = nody::recode_lossy(nody::encoding::utf8, nody::encoding::utf8, "\xE2\x82" "A"); // EF BF BD 41
inline std::string recode_lossy(encoding from, encoding to, bytes text) {
    std::string out;
    detail::append(out, detail::len_of(from, to, text), [&](std::uint8_t *into, std::size_t capacity, std::size_t *written) {
        return nody_recode_lossy(detail::c(from), detail::c(to), text.data(), text.size(), into, capacity, written);
    });
    return out;
}

// Transcodes all of a text. Each invalid byte of UTF-8 becomes what a table has for it.
//
//     std::string text = nody::recode_repair(nody::encoding::utf8, nody::encoding::utf8, "caf\xE9", nody::repair::windows_1252);
inline std::string recode_repair(encoding from, encoding to, bytes text, const repair &by) {
    std::string out;
    detail::append(out, detail::len_of(from, to, text), [&](std::uint8_t *into, std::size_t capacity, std::size_t *written) {
        return nody_recode_repair(detail::c(from), detail::c(to), text.data(), text.size(), into, capacity, by.number(), by.table(), by.table_len(), written);
    });
    return out;
}

// Transcodes a text up to its first fault, and appends that to `out`. Returns the fault, or nothing if all is valid.
//
//     std::string out;
//     if (auto it = nody::recode_strict(nody::encoding::utf8, nody::encoding::utf16le, text, out)) report(it->offset, nody::sentence(it->kind));
inline std::optional<fault> recode_strict(encoding from, encoding to, bytes text, std::string &out) {
    std::size_t read = 0;
    nody_fault_t found = {0, 0, NODY_KIND_NONE};
    detail::append(out, detail::most_of(from, to, text.size()), [&](std::uint8_t *into, std::size_t capacity, std::size_t *written) {
        return nody_recode_strict(detail::c(from), detail::c(to), text.data(), text.size(), into, capacity, &read, written, &found);
    });
    if (found.kind == NODY_KIND_NONE) return std::nullopt;
    return fault{read, found.len, static_cast<kind>(found.kind)};
}

// UTF-8 as UTF-16 in units, and the other way about, with U+FFFD for each fault.
//
//     std::u16string wide = nody::to_utf16("na\xC3\xAFve");
inline std::u16string to_utf16(bytes text) {
    std::size_t count = 0;
    std::u16string out(detail::len_of(encoding::utf8, encoding::utf16_native, text) / 2, u'\0');
    nody_utf8_to_utf16(text.data(), text.size(), reinterpret_cast<std::uint16_t *>(out.data()), out.size(), &count);
    return out;
}
inline std::string to_utf8(std::u16string_view text) {
    std::size_t count = 0;
    std::string out(detail::len_of(encoding::utf16_native, encoding::utf8, {reinterpret_cast<const std::byte *>(text.data()), 2 * text.size()}), '\0');
    nody_utf16_to_utf8(reinterpret_cast<const std::uint16_t *>(text.data()), text.size(), detail::bytes_of(out), out.size(), &count);
    return out;
}

// Transcodes input that comes in parts. The output does not depend on how it is divided. A recoder is movable, and copied only by copy():
// two copies would each continue after the bytes read so far. A recoder that was moved from is as new.
//
//     nody::recoder recoder(nody::encoding::utf8, nody::encoding::utf16le);
//     std::string out;
//     while (read_some(part)) recoder.feed(part, out);
//     recoder.finish(out);
class recoder {
public:
    // What a call that fills a buffer did.
    struct progress {
        nody::status status;
        std::size_t read, written;
    };

    recoder(encoding from, encoding to) noexcept : state_(nody_recoder(detail::c(from), detail::c(to))) {}
    recoder(const recoder &) = delete;
    recoder &operator=(const recoder &) = delete;
    recoder(recoder &&other) noexcept : state_(other.state_), read_(other.read_) { other.reset(); }
    recoder &operator=(recoder &&other) noexcept {
        nody_recoder_t state = other.state_;
        std::uint64_t read = other.read_;
        other.reset();
        state_ = state;
        read_ = read;
        return *this;
    }
    ~recoder() = default;

    [[nodiscard]] recoder copy() const noexcept { return recoder(state_, read_); }

    // Forgets what is held, and counts anew.
    void reset() noexcept {
        state_ = nody_recoder(state_.from, state_.to);
        read_ = 0;
    }

    // Appends to `out` the output of a part, and at the end of the input that of the bytes that are held.
    void feed(bytes part, std::string &out) {
        std::size_t read = 0;
        append(part.size(), out, [&](std::uint8_t *into, std::size_t capacity, std::size_t *written) {
            return nody_recoder_feed(&state_, part.data(), part.size(), into, capacity, &read, written);
        });
        read_ += read;
    }
    void finish(std::string &out) {
        append(0, out, [&](std::uint8_t *into, std::size_t capacity, std::size_t *written) { return nody_recoder_finish(&state_, into, capacity, written); });
    }

    // Transcodes with one U+FFFD for each maximal subpart, as browsers and Python do.
    void feed_lossy(bytes part, std::string &out) {
        std::size_t read = 0;
        append(part.size(), out, [&](std::uint8_t *into, std::size_t capacity, std::size_t *written) {
            return nody_recoder_feed_lossy(&state_, part.data(), part.size(), into, capacity, &read, written);
        });
        read_ += read;
    }
    void finish_lossy(std::string &out) {
        append(0, out, [&](std::uint8_t *into, std::size_t capacity, std::size_t *written) { return nody_recoder_finish_lossy(&state_, into, capacity, written); });
    }

    // Transcodes with what a table has for each invalid byte of UTF-8. Finish with the same table.
    void feed_repair(bytes part, std::string &out, const repair &by) {
        std::size_t read = 0;
        append(part.size(), out, [&](std::uint8_t *into, std::size_t capacity, std::size_t *written) {
            return nody_recoder_feed_repair(&state_, part.data(), part.size(), into, capacity, by.number(), by.table(), by.table_len(), &read, written);
        });
        read_ += read;
    }
    void finish_repair(std::string &out, const repair &by) {
        append(0, out, [&](std::uint8_t *into, std::size_t capacity, std::size_t *written) {
            return nody_recoder_finish_repair(&state_, into, capacity, by.number(), by.table(), by.table_len(), written);
        });
    }

    // Transcodes up to the first fault, and returns it. To go on after it, feed what follows the first `*read` bytes of the part. At the
    // end of the input call finish_strict until it returns none.
    std::optional<fault> feed_strict(bytes part, std::string &out, std::size_t *read = nullptr) {
        nody_fault_t found = {0, 0, NODY_KIND_NONE};
        std::size_t taken = 0;
        append(part.size(), out, [&](std::uint8_t *into, std::size_t capacity, std::size_t *written) {
            return nody_recoder_feed_strict(&state_, part.data(), part.size(), into, capacity, &taken, written, &found);
        });
        read_ += taken;
        if (read) *read = taken;
        return told(found);
    }
    std::optional<fault> finish_strict(std::string &out) {
        nody_fault_t found = {0, 0, NODY_KIND_NONE};
        append(0, out, [&](std::uint8_t *into, std::size_t capacity, std::size_t *written) { return nody_recoder_finish_strict(&state_, into, capacity, written, &found); });
        return told(found);
    }

    // Into a buffer, without allocating: if it is full, empty it, and feed the rest of the part. After the bytes that were written the buffer
    // may hold anything.
    progress feed_into(bytes part, std::uint8_t *out, std::size_t capacity) noexcept {
        progress it = {status::done, 0, 0};
        it.status = static_cast<status>(nody_recoder_feed(&state_, part.data(), part.size(), out, capacity, &it.read, &it.written));
        read_ += it.read;
        return it;
    }
    progress finish_into(std::uint8_t *out, std::size_t capacity) noexcept {
        progress it = {status::done, 0, 0};
        it.status = static_cast<status>(nody_recoder_finish(&state_, out, capacity, &it.written));
        return it;
    }

    // How many faults were replaced (feed_lossy counts each byte of a maximal subpart), how many bytes were read, and how many of these are held.
    std::uint64_t replaced() const noexcept { return state_.replaced; }
    std::uint64_t read() const noexcept { return read_; }
    std::size_t held() const noexcept {
        std::uint8_t buffer[3];
        return nody_recoder_held(&state_, buffer, sizeof buffer);
    }

private:
    recoder(const nody_recoder_t &state, std::uint64_t read) noexcept : state_(state), read_(read) {}

    // (three bytes may be held. The string is made before anything is read, so that nothing is lost if there is no memory)
    template <class Write> void append(std::size_t len, std::string &out, Write write) {
        if (len > SIZE_MAX - sizeof state_.held) detail::refuse_length();
        detail::append(out, detail::most_of(static_cast<encoding>(state_.from), static_cast<encoding>(state_.to), len + sizeof state_.held), write);
    }

    std::optional<fault> told(const nody_fault_t &found) const noexcept {
        if (found.kind == NODY_KIND_NONE) return std::nullopt;
        return fault{read_ - found.back, found.len, static_cast<kind>(found.kind)};
    }

    nody_recoder_t state_;
    std::uint64_t read_ = 0;
};

// ---- Pieces of input in parts

namespace detail {

inline located at(const nody_located_t &it) noexcept { return {it.offset, it.len, static_cast<char32_t>(it.scalar), static_cast<kind>(it.kind)}; }

// What a decoder and the ranges over its parts share: its state, and how often the state was changed.
struct decoding {
    nody_decoder_t state;
    std::uint64_t changes;
};

// How the calls for all pieces, and those only for faults, are named in C.
template <way taken> nody_status_t decode(nody_decoder_t *state, bytes part, nody_located_t *out, std::size_t capacity, std::size_t *read, std::size_t *written) noexcept {
    return (taken == way::faults ? nody_decoder_feed_faults : nody_decoder_feed)(state, part.data(), part.size(), out, capacity, read, written);
}
template <way taken> nody_status_t decode_end(nody_decoder_t *state, nody_located_t *out, std::size_t capacity, std::size_t *written) noexcept {
    return (taken == way::faults ? nody_decoder_finish_faults : nody_decoder_finish)(state, out, capacity, written);
}

// The pieces of one part, or of what is held at the end of the input. Some are decoded ahead. Yet the decoder is always after the current
// piece, as if only that had been decoded; if somebody else changed it, those ahead are decoded again.
template <way taken> class located_range {
public:
    class iterator {
    public:
        using iterator_category = std::input_iterator_tag;
        using value_type = located;
        using difference_type = std::ptrdiff_t;
        using pointer = const located *;
        using reference = const located &;

        // The piece that `it++` went on from.
        class before {
        public:
            explicit before(const located &piece) noexcept : piece_(piece) {}
            const located &operator*() const noexcept { return piece_; }

        private:
            located piece_;
        };

        iterator() noexcept = default;
        explicit iterator(located_range *range) noexcept : range_(range) {}
        reference operator*() const noexcept { return range_->piece_; }
        pointer operator->() const noexcept { return &range_->piece_; }
        iterator &operator++() noexcept {
            range_->take();
            return *this;
        }
        before operator++(int) noexcept {
            before had(**this);
            range_->take();
            return had;
        }
        // (a range has only one iterator, and the end)
        friend bool operator==(const iterator &a, const iterator &b) noexcept { return a.is_end() == b.is_end(); }
        friend bool operator!=(const iterator &a, const iterator &b) noexcept { return !(a == b); }

    private:
        bool is_end() const noexcept { return !range_ || range_->is_over_; }
        located_range *range_ = nullptr;
    };

    located_range(decoding *of, bytes part, bool is_end) noexcept : of_(of), part_(part), is_end_(is_end) {}
    // (views of C++20 take a range by moving it. Nothing is left of what it was moved from, and iterators stay there)
    located_range(located_range &&other) noexcept
        : of_(other.of_), part_(other.rest()), is_end_(other.is_end_), is_begun_(other.is_begun_), is_over_(other.is_over_), piece_(other.piece_) {
        other.leave();
    }
    located_range &operator=(located_range &&other) noexcept {
        located_range it(std::move(other));
        leave();
        of_ = it.of_;
        part_ = it.part_;
        is_end_ = it.is_end_;
        is_begun_ = it.is_begun_;
        is_over_ = it.is_over_;
        piece_ = it.piece_;
        return *this;
    }
    located_range(const located_range &) = delete;
    located_range &operator=(const located_range &) = delete;
    ~located_range() = default;

    iterator begin() noexcept {
        if (!is_begun_) take();
        return iterator(this);
    }
    iterator end() const noexcept { return {}; }

    // The bytes of the part that the decoder has not read: if the loop was left, feed these to go on.
    bytes rest() const noexcept {
        // (if the piece at hand ends in bytes that were held, so much less than nothing is passed)
        std::size_t read = read_ + (passed_ <= part_.size() - read_ ? static_cast<std::size_t>(passed_) : 0);
        return bytes(part_.data() + read, part_.size() - read);
    }

private:
    static constexpr std::size_t most_ahead = 32;

    // Ends the range: no piece is left, and no rest. (pieces that were asked for ahead are forgotten, since the decoder is before them)
    void leave() noexcept {
        part_ = {};
        read_ = next_ = count_ = 0;
        passed_ = 0;
        is_begun_ = is_over_ = true;
    }

    // Goes to the next piece.
    void take() noexcept {
        if (next_ < count_ && changes_ == of_->changes) show(buffer_[next_++]);
        else take_more();
    }

    // If all that were asked for are taken, the decoder is as the call left it. Those that others outdated are forgotten.
    void take_more() noexcept {
        is_begun_ = true;
        if (count_ && changes_ == of_->changes) end_call();
        if (is_over_) return;
        ask();
        if (count_) show(buffer_[next_++]);
        else end_call();
    }

    // Asks for the pieces of what is not read.
    void ask() noexcept {
        std::size_t read = 0;
        bytes left = rest();
        after_ = of_->state;
        nody_status_t told = is_end_ ? decode_end<taken>(&after_, buffer_, most_ahead, &count_) : decode<taken>(&after_, left, buffer_, most_ahead, &read, &count_);
        is_more_ = told == NODY_STATUS_FULL;
        next_ = 0;
        read_ = part_.size() - left.size();
        read_after_ = read_ + read;
        from_ = of_->state.offset + of_->state.count;
        passed_ = 0;
        changes_ = ++of_->changes;
    }

    void end_call() noexcept {
        of_->state = after_;
        read_ = read_after_;
        passed_ = 0;
        is_over_ = !is_more_;
    }

    // Moves the decoder to after a piece: bytes that it held were read before, and the others are of this part.
    void show(const nody_located_t &it) noexcept {
        nody_decoder_t &state = of_->state;
        std::uint64_t end = it.offset + it.len;
        if (state.count) drop(state, end - state.offset);
        passed_ = end - from_;
        state.offset = end;
        piece_.offset = it.offset;
        piece_.length = it.len;
        piece_.scalar = static_cast<char32_t>(it.scalar);
        piece_.kind = static_cast<kind>(it.kind);
    }

    // So many bytes are held no longer.
    static void drop(nody_decoder_t &state, std::uint64_t passed) noexcept {
        std::uint8_t held = state.count;
        state.count = passed < held ? static_cast<std::uint8_t>(held - passed) : std::uint8_t{0};
        for (std::uint8_t i = 0; i < state.count; i++) state.held[i] = state.held[held - state.count + i];
    }

    decoding *of_;
    bytes part_;
    std::size_t read_ = 0, read_after_ = 0, next_ = 0, count_ = 0;
    // The offset of the first byte that is not read of the part, when pieces were asked for; how much of it those that are taken pass; and which
    // change of the decoder that was.
    std::uint64_t from_ = 0, passed_ = 0, changes_ = 0;
    nody_decoder_t after_ = {NODY_UTF8, 0, {0, 0, 0}, 0};
    bool is_end_, is_begun_ = false, is_more_ = false, is_over_ = false;
    located piece_;
    nody_located_t buffer_[most_ahead];
};

} // namespace detail

// The pieces of input in parts, with offsets from its first byte. They do not depend on how it is divided. A part may end anywhere, also
// inside a character: at most three bytes are held until the next part decides which piece they begin. No call allocates. A decoder is
// moved, and copied only by copy(). One that was moved from is as new.
//
//     nody::decoder decoder(nody::encoding::utf8);
//     while (read_some(part))
//         for (const nody::located &it : decoder.feed(part))
//             if (!it.is_ok()) report(it.offset, nody::sentence(it.kind));
//     for (const nody::located &it : decoder.finish()) report(it.offset, nody::sentence(it.kind));
//
// A part is read while its range is iterated over, once. At each piece the decoder is after it: offset() is that of the next piece, and
// copy() continues from there. So a loop may be left, by an exception too: what was not read is the range's rest(). If the decoder is fed
// inside of such a loop, those bytes are decoded next, before the rest of the part. Decoder and part have to live as long as the range: a
// temporary decoder, or a temporary text that owns its bytes, does not compile, and compilers warn if a range is dropped. With C++20 views:
//
//     for (const nody::located &it : decoder.feed(part) | std::views::filter([](const auto &it) { return !it.is_ok(); })) ..
//
// The kinds are those of pieces() of the whole except in one case: see nody_decoder_feed in noddychest.h.
class decoder {
public:
    // What a call that fills a buffer did.
    struct progress {
        nody::status status;
        std::size_t read, written;
    };

    // (offsets may begin at another number than 0, as in the middle of a file)
    explicit decoder(encoding from, std::uint64_t offset = 0) noexcept : it_{nody_decoder(detail::c(from)), 0} { it_.state.offset = offset; }
    decoder(const decoder &) = delete;
    decoder &operator=(const decoder &) = delete;
    decoder(decoder &&other) noexcept : it_{other.it_.state, 0} { other.reset(); }
    decoder &operator=(decoder &&other) noexcept {
        nody_decoder_t state = other.it_.state;
        other.reset();
        change() = state;
        return *this;
    }
    ~decoder() = default;

    [[nodiscard]] decoder copy() const noexcept { return decoder(it_.state); }

    // Forgets what is held, and counts anew.
    void reset(std::uint64_t offset = 0) noexcept {
        change() = nody_decoder(it_.state.encoding);
        it_.state.offset = offset;
    }

    // A range over the pieces of the next part, and at the end of the input one over those of the bytes that are held, which are faults.
    [[nodiscard]] detail::located_range<detail::way::front> feed(bytes part) & noexcept { return {&it_, part, false}; }
    [[nodiscard]] detail::located_range<detail::way::front> finish() & noexcept { return {&it_, {}, true}; }
    template <class Text, class = detail::if_temporary<Text>> void feed(Text &&) & = delete;

    // Only the faults. Text between them is skipped as fast as it is validated. You may mix both.
    [[nodiscard]] detail::located_range<detail::way::faults> feed_faults(bytes part) & noexcept { return {&it_, part, false}; }
    [[nodiscard]] detail::located_range<detail::way::faults> finish_faults() & noexcept { return {&it_, {}, true}; }
    template <class Text, class = detail::if_temporary<Text>> void feed_faults(Text &&) & = delete;

    // Into a buffer: if it is full, empty it, and feed the rest of the part, even if nothing is left of it. What is after
    // the pieces that were written does not change.
    progress feed_into(bytes part, located *out, std::size_t capacity) noexcept { return fill<detail::way::front>(part, out, capacity); }
    progress feed_faults_into(bytes part, located *out, std::size_t capacity) noexcept { return fill<detail::way::faults>(part, out, capacity); }
    progress finish_into(located *out, std::size_t capacity) noexcept { return fill_end<detail::way::front>(out, capacity); }
    progress finish_faults_into(located *out, std::size_t capacity) noexcept { return fill_end<detail::way::faults>(out, capacity); }

    // The offset of the next piece, and how many bytes from there on were read and are held: 0 to 3. What is fed next begins at the sum.
    std::uint64_t offset() const noexcept { return it_.state.offset; }
    std::size_t held() const noexcept { return it_.state.count; }

private:
    explicit decoder(const nody_decoder_t &state) noexcept : it_{state, 0} {}

    // The state; open ranges see that it changes.
    nody_decoder_t &change() noexcept {
        it_.changes++;
        return it_.state;
    }

    template <detail::way taken> progress fill(bytes part, located *out, std::size_t capacity) noexcept {
        return filled(out, capacity, [&](std::size_t from, nody_located_t *into, std::size_t most, std::size_t *read, std::size_t *count) {
            return detail::decode<taken>(&change(), bytes(part.data() + from, part.size() - from), into, most, read, count);
        });
    }
    template <detail::way taken> progress fill_end(located *out, std::size_t capacity) noexcept {
        return filled(out, capacity, [&](std::size_t, nody_located_t *into, std::size_t most, std::size_t *, std::size_t *count) {
            return detail::decode_end<taken>(&change(), into, most, count);
        });
    }

    // Fills a buffer by calls that fill a small one.
    template <class Call> static progress filled(located *out, std::size_t capacity, Call call) noexcept {
        nody_located_t some[32];
        progress it = {status::full, 0, 0};
        do {
            std::size_t most = capacity - it.written < 32 ? capacity - it.written : 32, read = 0, count = 0;
            it.status = static_cast<nody::status>(call(it.read, some, most, &read, &count));
            for (std::size_t i = 0; i < count; i++) out[it.written + i] = detail::at(some[i]);
            it.read += read;
            it.written += count;
        } while (it.status == status::full && it.written < capacity);
        return it;
    }

    detail::decoding it_;
};

// A position in input in parts: the line, the column in pieces and the column in bytes, each from 1 on. A part may end anywhere, and the
// position does not depend on how the input is divided: nody_position_advance in noddychest.h says where lines end, and what counts. It
// is a value: a copy continues from there. Of a text that has faults, with their offsets:
//
//     nody::position at(nody::encoding::utf8);
//     std::size_t passed = 0;
//     for (const nody::located &it : nody::faults(text)) {
//         at.advance(text.substr(passed, it.offset - passed));
//         passed = it.offset;
//         report(at.line(), at.column(), nody::sentence(it.kind));
//     }
class position {
public:
    explicit position(encoding from) noexcept : from_(detail::c(from)), it_(nody_position()) {}

    // Advances over the next bytes of the input. (nothing changes if the encoding is none of enum encoding)
    void advance(bytes part) noexcept { nody_position_advance(&it_, from_, part.data(), part.size()); }

    std::uint64_t line() const noexcept { return it_.line; }
    std::uint64_t column() const noexcept { return it_.column; }
    std::uint64_t byte_column() const noexcept { return it_.byte_column; }

private:
    nody_encoding_t from_;
    nody_position_t it_;
};

// ---- The library

// Whether the library runs on this CPU, and its version: major * 1000000 + minor * 1000 + patch.
inline bool supported() noexcept { return nody_supported() != 0; }
inline std::uint32_t version() noexcept { return nody_version(); }

} // namespace nody

#ifdef NODY_HAS_SPAN
template <class Code, nody::detail::way taken> inline constexpr bool std::ranges::enable_borrowed_range<nody::detail::range<Code, taken>> = true;
template <class Code, nody::detail::way taken> inline constexpr bool std::ranges::enable_view<nody::detail::range<Code, taken>> = true;
#undef NODY_HAS_SPAN
#endif

#endif
