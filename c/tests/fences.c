/* Makes each call of noddychest.h with all that it takes between pages that must not be touched: fences COUNT [no-signals]. Inputs of up
 * to some blocks, damaged at random, lie at the front or at the end of their pages, and so do outputs; structs lie at the end. Encodings,
 * offsets, capacities and the bytes of structs are arbitrary. Inputs stay as they are, results are in bounds, and nothing is written
 * outside of the output, nor, if the header says so, after what was written. Then a signal interrupts calls, and its handler makes the
 * same ones. (QEMU 7.2 ends the program there, if it emulates an x86-64: a second word leaves that out)
 * Prints what failed, and then `N passed, M failed`. */
#define _DEFAULT_SOURCE
#include "noddychest.h"
#include "rows.h"

#include <signal.h>
#include <sys/mman.h>
#include <sys/time.h>
#include <unistd.h>

#ifndef MAP_ANONYMOUS
#define MAP_ANONYMOUS 0x20
#endif

enum { PAGES = 4, MOST_LEN = 2000, PAINT = 0x5A, BESIDE = 64 };

/* Pages that can be written, between two that cannot be touched. */
typedef struct {
    uint8_t *front, *end;
} fence;

static fence inputs, parts, outputs, structs, tables;

/* (a call that leaves them ends the program, and this is the last one that was made) */
static const char *volatile call = "none";

#define CALL(made) (call = #made, (made))
#define HOLDS(what) hold(what, #what)

static void hold(int holds, const char *what) { expect(holds, what, call); }

static void left_fence(int number) {
    printf("FAILED: left the fence: %s\n", call);
    fflush(stdout);
    signal(number, SIG_DFL);
    raise(number);
}

static fence make_fence(void) {
    size_t page = (size_t)sysconf(_SC_PAGESIZE);
    uint8_t *all = mmap(NULL, (PAGES + 2) * page, PROT_NONE, MAP_PRIVATE | MAP_ANONYMOUS, -1, 0);
    if (all == MAP_FAILED || mprotect(all + page, PAGES * page, PROT_READ | PROT_WRITE) != 0) stop("no pages", "to fence in");
    return (fence){all + page, all + (PAGES + 1) * page};
}

static uint64_t chance = 20261129;

static uint32_t below(uint32_t n) {
    chance = chance * 6364136223846793005u + 1442695040888963407u;
    return (uint32_t)(chance >> 33) % n;
}

/* So many bytes at one of the ends of the pages. */
static uint8_t *in_fence(fence it, size_t len) { return below(2) ? it.end - len : it.front; }

/* Painted memory with painted bytes around it. */
static uint8_t *room_of(size_t len) {
    uint8_t *room = in_fence(outputs, len);
    memset(room == outputs.front ? room : room - BESIDE, PAINT, len + BESIDE);
    return room;
}

/* Whether the paint is there still, from some byte of the room on, and beside it. */
static int is_painted(const uint8_t *room, size_t from, size_t len) {
    const uint8_t *end = room == outputs.front ? room + len + BESIDE : room + len;
    for (const uint8_t *at = room + from; at < end; at++)
        if (*at != PAINT) return 0;
    for (const uint8_t *at = room == outputs.front ? room : room - BESIDE; at < room; at++)
        if (*at != PAINT) return 0;
    return 1;
}

/* An offset in the input, or one far after it. */
static size_t any_offset(size_t len) { return below(4) ? below((uint32_t)len + 2) : SIZE_MAX - below(3); }

/* What a call is asked. `none` is no encoding. */
typedef struct {
    nody_encoding_t from, to, none;
    const uint8_t *in;
    const uint16_t *units;
    size_t len, count, at, other;
} asked;

/* Text of one alphabet, or of several, with damage as rare as it may be. */
static void fill(uint8_t *bytes, size_t len, nody_encoding_t encoding) {
    static const uint32_t first[] = {0x20, 0x410, 0x4E00, 0x1F600}, damage[] = {0xE2, 0x82, 0xF0, 0x9F, 0xED, 0xA0, 0xFF, 0xC3, 0xD8, 0xDC, 0};
    uint32_t rare = below(3) ? 5000 : 2 + below(20), alphabet = below(5);
    for (size_t at = 0, count = 0; at < len; at += count) {
        uint8_t text[4], code[4];
        uint32_t scalar = first[alphabet < 4 ? alphabet : below(4)] + below(64);
        size_t written = 0;
        nody_recode(NODY_UTF8, encoding, text, nody_utf8_encode(scalar, text, 4), code, 4, &written);
        if (below(rare) == 0) code[0] = (uint8_t)damage[below(sizeof damage / sizeof *damage)], written = 1;
        count = written < len - at ? written : len - at;
        memcpy(bytes + at, code, count);
    }
}

static asked any_question(void) {
    asked it = {(nody_encoding_t)below(3), (nody_encoding_t)below(3), (nody_encoding_t)(3 + below(253)), NULL, NULL, below(below(4) ? 200 : MOST_LEN), 0, 0, 0};
    uint8_t *in = in_fence(inputs, it.len), *units;
    it.count = it.len / 2;
    units = in_fence(parts, 2 * it.count);
    fill(in, it.len, it.from);
    memcpy(units, in, 2 * it.count);
    it.in = in;
    it.units = (const uint16_t *)(const void *)units;
    it.at = any_offset(it.len);
    it.other = any_offset(it.len);
    return it;
}

/* ---- Calls that read alone */

static const struct {
    size_t (*in_bytes)(const uint8_t *, size_t);
    size_t (*in_units)(const uint16_t *, size_t);
} LENGTHS[] = {{nody_utf8_valid_up_to, nody_utf16_valid_up_to}, {nody_utf8_char_count, nody_utf16_char_count}};

static size_t (*const AT_OF_BYTES[])(const uint8_t *, size_t, size_t) = {nody_utf8_offset_of, nody_utf8_number_of};
static size_t (*const AT_OF_UNITS[])(const uint16_t *, size_t, size_t) = {nody_utf16_offset_of, nody_utf16_number_of, nody_utf16_boundary_before, nody_utf16_boundary_after};
static size_t (*const IN_ENCODING[])(nody_encoding_t, const uint8_t *, size_t) = {nody_utf16_bytes_valid_up_to, nody_char_count, nody_undecided_len};
static size_t (*const AT_IN_ENCODING[])(nody_encoding_t, const uint8_t *, size_t, size_t) = {nody_offset_of, nody_number_of, nody_boundary_before, nody_boundary_after, nody_shard_end};
static nody_piece_t (*const ENDS_OF_BYTES[])(const uint8_t *, size_t) = {nody_utf8_first, nody_utf8_first_inline, nody_utf8_last};
static nody_piece_t (*const ENDS_OF_UNITS[])(const uint16_t *, size_t) = {nody_utf16_first, nody_utf16_last};

#define EACH(it, table) for (size_t it = 0; it < sizeof table / sizeof *table; it++)

static void measure(const asked *ask) {
    EACH(i, LENGTHS) HOLDS(CALL(LENGTHS[i].in_bytes(ask->in, ask->len)) <= ask->len && LENGTHS[i].in_units(ask->units, ask->count) <= ask->count);
    nody_survey_t survey;
    HOLDS(CALL((nody_survey(ask->in, ask->len, &survey), survey.len)) == ask->len && nody_guess(&survey) <= NODY_GUESS_BINARY);
    size_t room = below(5), count;
    nody_guess_t *guesses = (nody_guess_t *)room_of(room);
    HOLDS((count = CALL(nody_guesses(&survey, guesses, room))) <= room && count <= 3 && (count == 0) == (room == 0));
    HOLDS((count == 0 || guesses[0] == nody_guess(&survey)) && is_painted(guesses, count, room));
    EACH(i, AT_OF_BYTES) HOLDS(CALL(AT_OF_BYTES[i](ask->in, ask->len, ask->at)) <= ask->len);
    EACH(i, AT_OF_UNITS) HOLDS(CALL(AT_OF_UNITS[i](ask->units, ask->count, ask->at)) <= ask->count);
    EACH(i, IN_ENCODING) HOLDS(CALL(IN_ENCODING[i](ask->from, ask->in, ask->len)) <= ask->len && IN_ENCODING[i](ask->none, ask->in, ask->len) == SIZE_MAX);
    EACH(i, AT_IN_ENCODING) HOLDS(CALL(AT_IN_ENCODING[i](ask->from, ask->in, ask->len, ask->at)) <= ask->len && AT_IN_ENCODING[i](ask->none, ask->in, ask->len, ask->at) == SIZE_MAX);
}

static void look(const asked *ask) {
    nody_encoding_t told = ask->none;
    nody_range_t changed = CALL(nody_changed_range(ask->from, ask->in, ask->len, ask->at, ask->other)), none;
    EACH(i, ENDS_OF_BYTES) HOLDS(CALL(ENDS_OF_BYTES[i](ask->in, ask->len)).len <= ask->len);
    EACH(i, ENDS_OF_UNITS) HOLDS(CALL(ENDS_OF_UNITS[i](ask->units, ask->count)).len <= ask->count);
    HOLDS(changed.start <= changed.end && changed.end <= ask->len);
    none = nody_changed_range(ask->none, ask->in, ask->len, ask->at, ask->other);
    HOLDS(none.start == SIZE_MAX && none.end == SIZE_MAX);
    HOLDS(CALL(nody_utf8_streamed_at(ask->in, ask->len, ask->at)).len <= ask->len);
    size_t mark = CALL(nody_encoding_of_bom(ask->in, ask->len, &told));
    HOLDS((mark > 0) == (told != ask->none));
}

/* ---- Cursors */

static nody_piece_t (*const TAKE_BYTES[])(nody_bytes_t *) = {nody_utf8_next, nody_utf8_next_inline, nody_utf8_next_back};
static nody_piece_t (*const TAKE_UNITS[])(nody_units_t *) = {nody_utf16_next, nody_utf16_next_back};

static void take(const asked *ask) {
    nody_bytes_t *left = (nody_bytes_t *)(void *)(structs.end - sizeof *left);
    nody_units_t *units = (nody_units_t *)(void *)(structs.end - sizeof *left - sizeof *units);
    *left = nody_bytes(ask->in, ask->len);
    *units = nody_units(ask->units, ask->count);
    for (size_t i = 0; i < 40; i++) {
        size_t had = left->len, had_units = units->len;
        nody_piece_t piece = CALL(TAKE_BYTES[below(3)](left)), of_units = CALL(TAKE_UNITS[below(2)](units));
        HOLDS(piece.len + left->len == had && of_units.len + units->len == had_units);
    }
}

static void take_many(const asked *ask) {
    nody_bytes_t *left = (nody_bytes_t *)(void *)(structs.end - sizeof *left);
    nody_units_t *units = (nody_units_t *)(void *)(structs.end - sizeof *left - sizeof *units);
    size_t room = below(200), len = room * sizeof(nody_piece_t);
    uint64_t offset = 0;
    for (int way = 0; way < 4; way++) {
        uint8_t *out = room_of(len);
        nody_piece_t *pieces = (nody_piece_t *)(void *)out;
        nody_located_t *faults = (nody_located_t *)(void *)out;
        *left = nody_bytes(ask->in, ask->len);
        *units = nody_units(ask->units, ask->count);
        offset = UINT64_MAX - 5;
        size_t count = way == 0   ? CALL(nody_utf8_pieces(left, pieces, room))
                       : way == 1 ? CALL(nody_utf16_pieces(units, pieces, room))
                       : way == 2 ? CALL(nody_utf8_faults(left, &offset, faults, room))
                                  : CALL(nody_utf16_faults(units, &offset, faults, room));
        HOLDS(count <= room && is_painted(out, count * (way < 2 ? sizeof *pieces : sizeof *faults), len));
        HOLDS(way < 2 || offset + 6 == (way == 2 ? ask->len - left->len : ask->count - units->len));
    }
}

static void encode(void) {
    uint32_t scalar = below(2) ? below(0x110010) : below(UINT32_MAX);
    for (size_t room = 0; room < 5; room++) {
        uint8_t *out = room_of(2 * room);
        size_t len = CALL(nody_utf8_encode(scalar, out, room)), count;
        HOLDS(len <= 4 && is_painted(out, len <= room ? len : 0, 2 * room));
        out = room_of(2 * room);
        count = CALL(nody_utf16_encode(scalar, (uint16_t *)(void *)out, room));
        HOLDS(count <= 2 && (len == 0) == (count == 0) && is_painted(out, count <= room ? 2 * count : 0, 2 * room));
    }
}

/* Each number of a byte, of which the first twelve are kinds. */
static void name(nody_kind_t kind) {
    static const nody_name_t no_name = {"?"};
    static const nody_sentence_t no_sentence = {"?"};
    const nody_name_t **name = (const nody_name_t **)(void *)(structs.end - sizeof *name);
    const nody_sentence_t **sentence = (const nody_sentence_t **)(void *)(structs.end - 2 * sizeof *sentence);
    *name = &no_name;
    *sentence = &no_sentence;
    CALL((nody_put_kind_name(kind, name), nody_put_kind_sentence(kind, sentence)));
    HOLDS((kind <= NODY_KIND_NONE) == (*name != &no_name) && (kind <= NODY_KIND_NONE) == (*sentence != &no_sentence));
    HOLDS(memchr((*name)->text, 0, sizeof(*name)->text) && memchr((*sentence)->text, 0, sizeof(*sentence)->text));
}

/* ---- Transcoding */

/* What a call reports, with guard bytes between the fields. */
typedef struct {
    size_t before, read, between, written, after;
    nody_fault_t fault;
    size_t end;
} told;

static const told UNTOLD = {77, 99, 77, 99, 77, {99, 99, NODY_KIND_OK}, 77};

static int is_told(const told *it) { return it->before == 77 && it->between == 77 && it->after == 77 && it->end == 77; }

static void recode(const asked *ask) {
    size_t need = CALL(nody_recoded_len(ask->from, ask->to, ask->in, ask->len)), most = nody_recoded_len_max(ask->from, ask->to, ask->len);
    size_t room = below(3) ? need : below((uint32_t)most + 1);
    uint8_t *out = room_of(room);
    told it = UNTOLD;
    HOLDS(need <= most && nody_recoded_len(ask->none, ask->to, ask->in, ask->len) == SIZE_MAX && nody_recoded_len_max(ask->from, ask->none, ask->len) == SIZE_MAX);
    nody_status_t status = CALL(nody_recode(ask->from, ask->to, ask->in, ask->len, out, room, &it.written));
    HOLDS(it.written <= room && is_told(&it) && (status == NODY_STATUS_DONE) == (room >= need) && is_painted(out, room, room));
    out = room_of(room);
    status = CALL(nody_recode_strict(ask->from, ask->to, ask->in, ask->len, out, room, &it.read, &it.written, &it.fault));
    HOLDS(status != NODY_STATUS_REFUSED && it.read <= ask->len && it.written <= room && is_told(&it) && is_painted(out, room, room));
    out = room_of(room);
    it = UNTOLD;
    status = CALL(nody_recode(ask->none, ask->to, ask->in, ask->len, out, room, &it.written));
    HOLDS(status == NODY_STATUS_REFUSED && it.written == 0);
    status = CALL(nody_recode_strict(ask->from, ask->none, ask->in, ask->len, out, room, &it.read, &it.written, &it.fault));
    HOLDS(status == NODY_STATUS_REFUSED && it.read == 0 && it.written == 0 && is_told(&it) && is_painted(out, 0, room));
}

/* A table of up to 140 numbers, most of them characters up to U+FFFF, and which table a call takes. */
typedef struct {
    nody_repair_t repair;
    const uint32_t *table;
    size_t len;
} repair;

static repair any_repair(void) {
    size_t len = below(141);
    uint32_t *table = (uint32_t *)(void *)in_fence(tables, len * sizeof *table);
    for (size_t i = 0; i < len; i++) table[i] = below(below(9) ? 0x10000 : UINT32_MAX);
    return (repair){(nody_repair_t)below(4), table, len};
}

/* The calls that nody_recoded_len has a sufficient capacity for. */
static void recode_by_recoder(const asked *ask) {
    size_t need = nody_recoded_len(ask->from, ask->to, ask->in, ask->len), room = below(2) ? need : below((uint32_t)need + 1);
    repair by = any_repair();
    uint8_t *out = room_of(room);
    told it = UNTOLD;
    nody_status_t status = CALL(nody_recode_lossy(ask->from, ask->to, ask->in, ask->len, out, room, &it.written));
    HOLDS(it.written <= room && is_told(&it) && status <= NODY_STATUS_FULL && (status == NODY_STATUS_DONE || room < need) && is_painted(out, room, room));
    out = room_of(room);
    status = CALL(nody_recode_repair(ask->from, ask->to, ask->in, ask->len, out, room, by.repair, by.table, by.len, &it.written));
    HOLDS(it.written <= room && is_told(&it) && status <= NODY_STATUS_FULL && (status == NODY_STATUS_DONE || room < need) && is_painted(out, room, room));
    out = room_of(room);
    status = CALL(nody_recode_repair(ask->from, ask->to, ask->in, ask->len, out, room, (nody_repair_t)(4 + below(252)), by.table, by.len, &it.written));
    HOLDS(status == NODY_STATUS_REFUSED && it.written == 0 && is_told(&it) && is_painted(out, 0, room));
}

static void recode_units(const asked *ask) {
    size_t room = below((uint32_t)(ask->len + 2)), written = 99;
    uint8_t *out = room_of(2 * room);
    nody_status_t status = CALL(nody_utf8_to_utf16(ask->in, ask->len, (uint16_t *)(void *)out, room, &written));
    HOLDS(status <= NODY_STATUS_FULL && written <= room && is_painted(out, 2 * room, 2 * room));
    out = room_of(room);
    status = CALL(nody_utf16_to_utf8(ask->units, ask->count, out, room, &written));
    HOLDS(status <= NODY_STATUS_FULL && written <= room && is_painted(out, room, room));
}

/* Some bytes of the input at an end of pages of their own. */
static const uint8_t *part_of(const asked *ask, size_t at, size_t len) {
    return memcpy(in_fence(parts, len), ask->in + at, len);
}

static void fill_any(void *bytes, size_t len) {
    for (size_t i = 0; i < len; i++) ((uint8_t *)bytes)[i] = (uint8_t)below(below(2) ? 4 : 256);
}

static nody_status_t feed(nody_recoder_t *recoder, const uint8_t *in, size_t len, uint8_t *out, size_t room, told *it) {
    repair by = any_repair();
    switch (below(4)) {
    case 0: return CALL(nody_recoder_feed(recoder, in, len, out, room, &it->read, &it->written));
    case 1: return CALL(nody_recoder_feed_lossy(recoder, in, len, out, room, &it->read, &it->written));
    case 2: return CALL(nody_recoder_feed_repair(recoder, in, len, out, room, by.repair, by.table, by.len, &it->read, &it->written));
    default: return CALL(nody_recoder_feed_strict(recoder, in, len, out, room, &it->read, &it->written, &it->fault));
    }
}

static nody_status_t finish(nody_recoder_t *recoder, uint8_t *out, size_t room, told *it) {
    repair by = any_repair();
    it->read = 0;
    switch (below(4)) {
    case 0: return CALL(nody_recoder_finish(recoder, out, room, &it->written));
    case 1: return CALL(nody_recoder_finish_lossy(recoder, out, room, &it->written));
    case 2: return CALL(nody_recoder_finish_repair(recoder, out, room, by.repair, by.table, by.len, &it->written));
    default: return CALL(nody_recoder_finish_strict(recoder, out, room, &it->written, &it->fault));
    }
}

/* Feeds a recoder that was made, or is of any bytes, and ends its input in the middle too. */
static void recode_parts(const asked *ask, int is_any) {
    nody_recoder_t *recoder = (nody_recoder_t *)(void *)(structs.end - sizeof *recoder);
    *recoder = nody_recoder(ask->from, ask->to);
    if (is_any) fill_any(recoder, sizeof *recoder);
    int is_one = recoder->from < 3 && recoder->to < 3 && recoder->count < 4;
    for (size_t calls = 0, at = 0; calls < 12; calls++) {
        size_t len = below(2) ? below((uint32_t)(ask->len - at) + 1) : at < ask->len, room = below(2) ? below(20) : 3 * len + 9;
        const uint8_t *part = part_of(ask, at, len);
        uint8_t *out = room_of(room);
        told it = UNTOLD;
        nody_status_t status = below(5) ? feed(recoder, part, len, out, room, &it) : finish(recoder, out, room, &it);
        HOLDS((status == NODY_STATUS_REFUSED) == !is_one && it.read <= len && it.written <= room && is_told(&it));
        HOLDS((is_one || it.read + it.written == 0) && is_painted(out, is_one ? room : 0, room) && memcmp(part, ask->in + at, len) == 0);
        at += it.read;
        out = room_of(room = below(5));
        len = CALL(nody_recoder_held(recoder, out, room));
        HOLDS(is_one ? len <= 3 : len == SIZE_MAX);
        HOLDS(is_painted(out, len <= room ? len : 0, room));
    }
}

static nody_status_t decode(nody_decoder_t *decoder, const uint8_t *in, size_t len, nody_located_t *out, size_t room, told *it) {
    switch (below(5)) {
    case 0: return it->read = 0, CALL(nody_decoder_finish(decoder, out, room, &it->written));
    case 1: return it->read = 0, CALL(nody_decoder_finish_faults(decoder, out, room, &it->written));
    case 2: return CALL(nody_decoder_feed_faults(decoder, in, len, out, room, &it->read, &it->written));
    default: return CALL(nody_decoder_feed(decoder, in, len, out, room, &it->read, &it->written));
    }
}

static void decode_parts(const asked *ask, int is_any) {
    nody_decoder_t *decoder = (nody_decoder_t *)(void *)(structs.end - sizeof *decoder);
    *decoder = nody_decoder(ask->from);
    if (is_any) fill_any(decoder, sizeof *decoder);
    int is_one = decoder->encoding < 3 && decoder->count < 4;
    for (size_t calls = 0, at = 0; calls < 12; calls++) {
        size_t len = below(2) ? below((uint32_t)(ask->len - at) + 1) : at < ask->len, room = below(below(2) ? 5 : 200);
        const uint8_t *part = part_of(ask, at, len);
        uint8_t *out = room_of(room * sizeof(nody_located_t));
        told it = UNTOLD;
        nody_status_t status = decode(decoder, part, len, (nody_located_t *)(void *)out, room, &it);
        HOLDS((status == NODY_STATUS_REFUSED) == !is_one && it.read <= len && it.written <= room && is_told(&it));
        HOLDS((is_one || it.read + it.written == 0) && is_painted(out, it.written * sizeof(nody_located_t), room * sizeof(nody_located_t)));
        at += it.read;
    }
}

static void advance_position(const asked *ask, int is_any) {
    nody_position_t *position = (nody_position_t *)(void *)(structs.end - sizeof *position);
    *position = nody_position();
    if (is_any) fill_any(position, sizeof *position);
    for (size_t calls = 0, at = 0; calls < 6; calls++) {
        size_t len = below(2) ? below((uint32_t)(ask->len - at) + 1) : at < ask->len;
        nody_encoding_t encoding = below(9) ? ask->from : ask->none;
        int is_one = encoding < 3 && position->count < 4;
        nody_position_t before;
        memcpy(&before, position, sizeof before);
        const uint8_t *part = part_of(ask, at, len);
        HOLDS((CALL(nody_position_advance(position, encoding, part, len)) == NODY_STATUS_DONE) == is_one);
        HOLDS(is_one ? position->count < 4 : memcmp(position, &before, sizeof before) == 0);
        at += is_one ? len : 0;
    }
}

/* The two last bytes of a surveyor that are not padding count the first and the last bytes that it keeps. */
static void feed_surveyor(const asked *ask, int is_any) {
    nody_surveyor_t *surveyor = (nody_surveyor_t *)(void *)(structs.end - sizeof *surveyor);
    const uint8_t *counts = (const uint8_t *)surveyor + 172;
    *surveyor = nody_surveyor();
    if (is_any) fill_any(surveyor, sizeof *surveyor);
    for (size_t calls = 0, at = 0; calls < 6; calls++) {
        size_t len = below(2) ? below((uint32_t)(ask->len - at) + 1) : at < ask->len;
        int is_one = counts[0] <= 4 && 3 <= counts[1] && counts[1] <= 16;
        nody_surveyor_t before;
        nody_survey_t survey;
        memcpy(&before, surveyor, sizeof before);
        const uint8_t *part = part_of(ask, at, len);
        HOLDS((CALL(nody_surveyor_feed(surveyor, part, len)) == NODY_STATUS_DONE) == is_one);
        HOLDS(is_one || memcmp(surveyor, &before, sizeof before) == 0);
        HOLDS((CALL(nody_surveyor_survey(surveyor, &survey)) == NODY_STATUS_DONE) == is_one);
        HOLDS(nody_guess(&survey) <= NODY_GUESS_BINARY && (is_one || survey.len == 0));
        at += is_one ? len : 0;
        HOLDS(is_any || survey.len == at);
    }
}

static void fences(unsigned long count) {
    static uint8_t copy[MOST_LEN];
    while (count-- > 0) {
        asked ask = any_question();
        memcpy(copy, ask.in, ask.len);
        measure(&ask);
        look(&ask);
        take(&ask);
        take_many(&ask);
        encode();
        name((nody_kind_t)below(256));
        recode(&ask);
        recode_by_recoder(&ask);
        recode_units(&ask);
        for (int is_any = 0; is_any < 2; is_any++) {
            recode_parts(&ask, is_any);
            decode_parts(&ask, is_any);
            advance_position(&ask, is_any);
            feed_surveyor(&ask, is_any);
        }
        call = "all calls";
        HOLDS(memcmp(copy, ask.in, ask.len) == 0);
    }
}

/* ---- Signals */

enum { SIGNALS = 200 };
static volatile sig_atomic_t came, wrong;
static uint8_t text[3 * MOST_LEN], made[3 * MOST_LEN], want[3 * MOST_LEN];
static size_t text_len, want_len;

/* Whether one transcoding, in two parts, and one count give what they gave first. */
static int is_as_before(uint8_t *out) {
    nody_recoder_t recoder = nody_recoder(NODY_UTF8, NODY_UTF16BE);
    size_t read, first, rest, end, half = text_len / 2;
    nody_recoder_feed(&recoder, text, half, out, sizeof made, &read, &first);
    nody_recoder_feed(&recoder, text + half, text_len - half, out + first, sizeof made - first, &read, &rest);
    nody_recoder_finish(&recoder, out + first + rest, sizeof made - first - rest, &end);
    return first + rest + end == want_len && memcmp(out, want, want_len) == 0 && nody_char_count(NODY_UTF16BE, out, want_len) == nody_utf8_char_count(text, text_len);
}

static void on_alarm(int number) {
    static uint8_t out[sizeof made];
    (void)number;
    came++;
    wrong += !is_as_before(out);
}

static void signals(void) {
    const struct itimerval often = {{0, 500}, {0, 500}}, never = {{0, 0}, {0, 0}};
    text_len = sizeof text / 3;
    fill(text, text_len, NODY_UTF8);
    nody_recode(NODY_UTF8, NODY_UTF16BE, text, text_len, want, sizeof want, &want_len);
    signal(SIGALRM, on_alarm);
    setitimer(ITIMER_REAL, &often, NULL);
    while (came < SIGNALS) wrong += !is_as_before(made);
    setitimer(ITIMER_REAL, &never, NULL);
    expect(wrong == 0, "calls in a handler of a signal", "and those that it interrupts");
}

int main(int argc, char **argv) {
    unsigned long count = argc > 1 ? strtoul(argv[1], NULL, 10) : 1000;
    signal(SIGSEGV, left_fence);
    signal(SIGBUS, left_fence);
    inputs = make_fence();
    parts = make_fence();
    outputs = make_fence();
    structs = make_fence();
    tables = make_fence();
    fences(count);
    if (argc < 3) signals();
    return tell();
}
