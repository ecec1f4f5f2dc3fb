/* Whether the calls that validate, count and recode take the code that is right for this CPU: lanes [16|32]. Without the number
 * it asks the compiler's own library what the CPU has. It makes each of these calls before the library has asked the
 * CPU, when they take the code that runs everywhere, and again in main; a shared library has asked before either. Prints
 * what failed, and then `N passed, M failed`. */
#include "noddychest.h"
#include "rows.h"

enum { CHARS = 60, BYTES = 2 * CHARS, UTF8 = NODY_UTF8, UTF16BE = NODY_UTF16BE };

/* The same text in each encoding, with a trailing surrogate alone after it. */
static uint8_t utf8[BYTES + 2], utf16be[BYTES + 2];
static uint16_t utf16[CHARS + 1];

static void fill(void) {
    for (int i = 0; i < CHARS; i++) {
        utf8[2 * i] = 0xC4;
        utf8[2 * i + 1] = 0x81;
        utf16be[2 * i] = utf16be[2 * i + 1] = 1;
        utf16[i] = 0x0101;
    }
    utf8[BYTES] = 0xED;
    utf8[BYTES + 1] = 0xA0;
    utf16be[BYTES] = 0xDC;
    utf16[CHARS] = 0xDC00;
}

static uint8_t out[BYTES + 64];
static size_t taken, written;

/* Whether that call turned the text into UTF-16BE. */
static int recodes(nody_status_t status) {
    int is_text = status == NODY_STATUS_DONE && taken == BYTES && written == BYTES && memcmp(out, utf16be, BYTES) == 0;
    memset(out, 0, sizeof out);
    taken = BYTES;
    written = 0;
    return is_text;
}

static void ask(const char *when, int lanes) {
    nody_recoder_t recoder = nody_recoder(UTF8, UTF16BE);
    nody_fault_t fault;
    nody_decoder_t decoder = nody_decoder(UTF16BE);
    nody_position_t position = nody_position();
    nody_bytes_t bytes = nody_bytes(utf8, BYTES + 2);
    nody_units_t units = nody_units(utf16, CHARS + 1);
    nody_located_t faults[3];
    uint64_t offset = 0, unit_offset = 0;
    taken = BYTES;
    expect(nody_lanes() == lanes, "nody_lanes", when);
    expect(nody_utf8_valid_up_to(utf8, BYTES + 2) == BYTES, "nody_utf8_valid_up_to", when);
    expect(nody_utf16_valid_up_to(utf16, CHARS + 1) == CHARS, "nody_utf16_valid_up_to", when);
    expect(nody_utf16_bytes_valid_up_to(UTF16BE, utf16be, BYTES + 2) == BYTES, "nody_utf16_bytes_valid_up_to", when);
    expect(nody_utf8_char_count(utf8, BYTES + 2) == CHARS + 2, "nody_utf8_char_count", when);
    expect(nody_utf8_offset_of(utf8, BYTES + 2, CHARS - 1) == BYTES - 2, "nody_utf8_offset_of", when);
    expect(nody_utf8_number_of(utf8, BYTES + 2, BYTES - 1) == CHARS, "nody_utf8_number_of", when);
    expect(nody_utf16_char_count(utf16, CHARS + 1) == CHARS + 1, "nody_utf16_char_count", when);
    expect(nody_utf16_offset_of(utf16, CHARS + 1, CHARS) == CHARS, "nody_utf16_offset_of", when);
    expect(nody_utf16_number_of(utf16, CHARS + 1, CHARS) == CHARS, "nody_utf16_number_of", when);
    expect(nody_char_count(UTF16BE, utf16be, BYTES + 2) == CHARS + 1, "nody_char_count", when);
    expect(nody_offset_of(UTF16BE, utf16be, BYTES + 2, CHARS) == BYTES, "nody_offset_of", when);
    expect(nody_number_of(UTF16BE, utf16be, BYTES + 2, BYTES - 1) == CHARS, "nody_number_of", when);
    expect(nody_utf8_faults(&bytes, &offset, faults, 3) == 2 && faults[0].offset == BYTES, "nody_utf8_faults", when);
    expect(nody_utf16_faults(&units, &unit_offset, faults, 3) == 1 && faults[0].offset == CHARS, "nody_utf16_faults", when);
    expect(nody_decoder_feed_faults(&decoder, utf16be, BYTES + 2, faults, 3, &taken, &written) == NODY_STATUS_DONE && taken == BYTES + 2 &&
               written == 1 && faults[0].offset == BYTES, "nody_decoder_feed_faults", when);
    expect(nody_position_advance(&position, UTF16BE, utf16be, BYTES + 2) == NODY_STATUS_DONE && position.line == 1 &&
               position.column == CHARS + 2 && position.byte_column == BYTES + 3, "nody_position_advance", when);
    nody_surveyor_t surveyor = nody_surveyor();
    nody_survey_t survey;
    nody_survey(utf8, BYTES + 2, &survey);
    expect(survey.len == BYTES + 2 && survey.utf8.faults == 2, "nody_survey", when);
    expect(nody_surveyor_feed(&surveyor, utf8, BYTES + 2) == NODY_STATUS_DONE && nody_surveyor_survey(&surveyor, &survey) == NODY_STATUS_DONE &&
               survey.utf8.faults == 2, "nody_surveyor_feed", when);
    taken = BYTES;
    written = 0;
    expect(nody_recoded_len(UTF8, UTF16BE, utf8, BYTES) == BYTES, "nody_recoded_len", when);
    expect(recodes(nody_recode(UTF8, UTF16BE, utf8, BYTES, out, sizeof out, &written)), "nody_recode", when);
    expect(recodes(nody_recode_strict(UTF8, UTF16BE, utf8, BYTES, out, sizeof out, &taken, &written, &fault)), "nody_recode_strict", when);
    expect(recodes(nody_recoder_feed(&recoder, utf8, BYTES, out, sizeof out, &taken, &written)), "nody_recoder_feed", when);
    expect(recodes(nody_recoder_feed_lossy(&recoder, utf8, BYTES, out, sizeof out, &taken, &written)), "nody_recoder_feed_lossy", when);
    expect(recodes(nody_recoder_feed_repair(&recoder, utf8, BYTES, out, sizeof out, NODY_REPAIR_LATIN_1, NULL, 0, &taken, &written)), "nody_recoder_feed_repair", when);
    expect(recodes(nody_recoder_feed_strict(&recoder, utf8, BYTES, out, sizeof out, &taken, &written, &fault)), "nody_recoder_feed_strict", when);
}

static int lanes_here(void) {
#ifdef __x86_64__
    __builtin_cpu_init();
    return __builtin_cpu_supports("avx2") && __builtin_cpu_supports("bmi2") && __builtin_cpu_supports("fma") ? 32 : 16;
#else
    return 16;
#endif
}

/* The lanes that the library uses before its constructor has asked the CPU. A build that asks at each call prints what main does. */
#ifndef LANES_FIRST
#define LANES_FIRST 16
#endif

/* (the library's constructor has a higher number, and so it comes later) */
__attribute__((constructor(101))) static void come_first(void) {
    fill();
    ask("before the processor was asked", LANES_FIRST);
}

int main(int argc, char **argv) {
    ask("in main", argc > 1 ? atoi(argv[1]) : lanes_here());
    return tell();
}
