/* What this CPU has: whether the library runs on it, and which code the calls take that validate, count and recode. */
#include "noddychest.h"

#if defined(__x86_64__) || defined(_M_X64)

/* How the compiler asks the CPU, and calls something when the library is loaded. By its number that comes before the constructors
 * of a program, which mostly have none. */
#if defined(_MSC_VER) && !defined(__clang__)
#include <intrin.h>
#define HIDDEN
#define SECTION(name)
#define AT_LOAD static void __cdecl
#pragma section(".CRT$XCT", read)

static void ask(unsigned leaf, unsigned *eax, unsigned *ebx, unsigned *ecx, unsigned *edx) {
    int answer[4];
    __cpuid(answer, (int)(leaf & 0x80000000));
    if ((unsigned)answer[0] < leaf) return;
    __cpuidex(answer, (int)leaf, 0);
    *eax = (unsigned)answer[0];
    *ebx = (unsigned)answer[1];
    *ecx = (unsigned)answer[2];
    *edx = (unsigned)answer[3];
}

static unsigned kept_registers(void) {
    return (unsigned)_xgetbv(0);
}
#else
#include <cpuid.h>
/* (Windows' format of objects knows no hidden names: there the list of what a DLL exports does the same. On macOS a linker drops functions
 * by their names, without sections) */
#ifdef _WIN32
#define HIDDEN
#else
#define HIDDEN __attribute__((visibility("hidden")))
#endif
#ifdef __APPLE__
#define SECTION(name)
#else
#define SECTION(name) __attribute__((section(".text." #name)))
#endif
#define AT_LOAD __attribute__((constructor(1000))) static void

static void ask(unsigned leaf, unsigned *eax, unsigned *ebx, unsigned *ecx, unsigned *edx) {
    __get_cpuid_count(leaf, 0, eax, ebx, ecx, edx);
}

static unsigned kept_registers(void) {
    unsigned eax, edx;
    __asm__("xgetbv" : "=a"(eax), "=d"(edx) : "c"(0));
    return eax;
}
#endif

/* x86-64-v2: SSE3, SSSE3, CMPXCHG16B, SSE4.1, SSE4.2 and POPCNT of the leaf 1, and LAHF of the leaf 0x80000001, all in ECX. */
enum { V2_LEAF_1 = 0x982201, V2_LEAF_80000001 = 1 };

/* x86-64-v3 has more: FMA, MOVBE, OSXSAVE, AVX and F16C of the leaf 1, and LZCNT of the leaf 0x80000001, in ECX; BMI1, AVX2 and
 * BMI2 of the leaf 7, in EBX. The system has to keep the registers xmm and ymm: XCR0 says so. */
enum { V3_LEAF_1 = 0x38401000, V3_LEAF_80000001 = 0x20, V3_LEAF_7 = 0x128, V3_KEPT = 6 };

static unsigned missing(unsigned leaf, unsigned needed) {
    unsigned eax, ebx, ecx = 0, edx;
    ask(leaf, &eax, &ebx, &ecx, &edx);
    return needed & ~ecx;
}

int nody_supported(void) {
    return !missing(1, V2_LEAF_1) && !missing(0x80000001, V2_LEAF_80000001);
}

static int has_v3(void) {
    unsigned eax, ebx = 0, ecx, edx;
    if (!nody_supported() || missing(1, V3_LEAF_1) || missing(0x80000001, V3_LEAF_80000001)) return 0;
    ask(7, &eax, &ebx, &ecx, &edx);
    return !(V3_LEAF_7 & ~ebx) && (kept_registers() & V3_KEPT) == V3_KEPT;
}

/* 1 once it was seen, when the library is loaded, that the CPU has x86-64-v3. Before that 0, which is right too. */
static unsigned char is_v3;

AT_LOAD choose(void) {
    is_v3 = (unsigned char)has_v3();
}

#if defined(_MSC_VER) && !defined(__clang__)
/* (the linker keeps it, though nothing names it) */
__declspec(allocate(".CRT$XCT")) void(__cdecl *const nody_choose_at_load)(void) = choose;
#pragma comment(linker, "/include:nody_choose_at_load")
#endif

/* A call whose code is there twice, in generated/noddychest-x86_64.s and generated/noddychest-x86_64-v3.s. scripts/generate gives
 * the two these names, by the lines below. Each call has a section of its own, so that a linker can drop it with its code. */
#define CHOSEN(type, name, parameters, arguments) \
    HIDDEN type name##_v2 parameters; \
    HIDDEN type name##_v3 parameters; \
    SECTION(name) type name parameters { \
        return is_v3 ? name##_v3 arguments : name##_v2 arguments; \
    }

/* (C allows no `return` of what has no value) */
#define CHOSEN_VOID(name, parameters, arguments) \
    HIDDEN void name##_v2 parameters; \
    HIDDEN void name##_v3 parameters; \
    SECTION(name) void name parameters { \
        (is_v3 ? name##_v3 : name##_v2) arguments; \
    }

#define ENCODINGS nody_encoding_t from, nody_encoding_t to
#define INPUT const uint8_t *in, size_t len
#define ROOM uint8_t *out, size_t room
#define FOUND nody_located_t *out, size_t room

CHOSEN(size_t, nody_utf8_valid_up_to, (const uint8_t *bytes, size_t len), (bytes, len))
CHOSEN(size_t, nody_utf16_valid_up_to, (const uint16_t *units, size_t len), (units, len))
CHOSEN(size_t, nody_utf16_bytes_valid_up_to, (nody_encoding_t encoding, const uint8_t *bytes, size_t len), (encoding, bytes, len))
CHOSEN(size_t, nody_utf8_char_count, (const uint8_t *bytes, size_t len), (bytes, len))
CHOSEN(size_t, nody_utf8_offset_of, (const uint8_t *bytes, size_t len, size_t number), (bytes, len, number))
CHOSEN(size_t, nody_utf8_number_of, (const uint8_t *bytes, size_t len, size_t offset), (bytes, len, offset))
CHOSEN(size_t, nody_utf16_char_count, (const uint16_t *units, size_t len), (units, len))
CHOSEN(size_t, nody_utf16_offset_of, (const uint16_t *units, size_t len, size_t number), (units, len, number))
CHOSEN(size_t, nody_utf16_number_of, (const uint16_t *units, size_t len, size_t offset), (units, len, offset))
CHOSEN(size_t, nody_char_count, (nody_encoding_t encoding, const uint8_t *bytes, size_t len), (encoding, bytes, len))
CHOSEN(size_t, nody_offset_of, (nody_encoding_t encoding, const uint8_t *bytes, size_t len, size_t number), (encoding, bytes, len, number))
CHOSEN(size_t, nody_number_of, (nody_encoding_t encoding, const uint8_t *bytes, size_t len, size_t offset), (encoding, bytes, len, offset))
CHOSEN(size_t, nody_utf8_faults, (nody_bytes_t *left, uint64_t *offset, FOUND), (left, offset, out, room))
CHOSEN(size_t, nody_utf16_faults, (nody_units_t *left, uint64_t *offset, FOUND), (left, offset, out, room))
CHOSEN(nody_status_t, nody_decoder_feed_faults, (nody_decoder_t *decoder, INPUT, FOUND, size_t *read, size_t *written),
       (decoder, in, len, out, room, read, written))
CHOSEN(nody_status_t, nody_position_advance, (nody_position_t *position, nody_encoding_t encoding, const uint8_t *bytes, size_t len),
       (position, encoding, bytes, len))
CHOSEN_VOID(nody_survey, (const uint8_t *bytes, size_t len, nody_survey_t *survey), (bytes, len, survey))
CHOSEN(nody_status_t, nody_surveyor_feed, (nody_surveyor_t *surveyor, const uint8_t *part, size_t len), (surveyor, part, len))
CHOSEN(size_t, nody_recoded_len, (ENCODINGS, INPUT), (from, to, in, len))
CHOSEN(nody_status_t, nody_recode, (ENCODINGS, INPUT, ROOM, size_t *written), (from, to, in, len, out, room, written))
CHOSEN(nody_status_t, nody_recode_strict, (ENCODINGS, INPUT, ROOM, size_t *read, size_t *written, nody_fault_t *fault),
       (from, to, in, len, out, room, read, written, fault))
CHOSEN(nody_status_t, nody_recoder_feed, (nody_recoder_t *recoder, INPUT, ROOM, size_t *read, size_t *written),
       (recoder, in, len, out, room, read, written))
CHOSEN(nody_status_t, nody_recoder_feed_lossy, (nody_recoder_t *recoder, INPUT, ROOM, size_t *read, size_t *written),
       (recoder, in, len, out, room, read, written))
CHOSEN(nody_status_t, nody_recoder_feed_repair,
       (nody_recoder_t *recoder, INPUT, ROOM, nody_repair_t repair, const uint32_t *table, size_t table_len, size_t *read, size_t *written),
       (recoder, in, len, out, room, repair, table, table_len, read, written))
CHOSEN(nody_status_t, nody_recoder_feed_strict, (nody_recoder_t *recoder, INPUT, ROOM, size_t *read, size_t *written, nody_fault_t *fault),
       (recoder, in, len, out, room, read, written, fault))

/* (chosen as the other calls are, so that it returns the width that they use) */
CHOSEN(int, nody_lanes, (void), ())

int nody_lanes_v2(void) {
    return 16;
}

int nody_lanes_v3(void) {
    return 32;
}
#else
/* The first ARMv8 is enough. */
int nody_supported(void) {
    return 1;
}

int nody_lanes(void) {
    return 16;
}
#endif
