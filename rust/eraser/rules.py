"""What the eraser knows of this project and of Rattle's std. What is in none of these lists stops it."""

# The crates that become modules, each after those that it uses.
CRATES = ["utf_base", "utf_chars", "encode_unicode", "utf_lanes", "recoding", "surveys", "text_runs", "text_buffers", "text_stream", "text_positions", "cuts", "c_api"]

# The modules that are left out: what the programs do, streams that are counted, and what reads and writes by these need Rattle's runtime.
LEFT_OUT = {"cuts/programs", "cuts/streams", "cuts/counted", "text_buffers/text_streams", "text_runs/streams", "text_runs/counted"}

# Attributes that Rust has too, and those that are Rattle's alone and go.
ATTRIBUTES = {"cold", "derive", "inline", "must_use", "non_exhaustive", "repr"}
GHOST_ATTRIBUTES = {"tactic", "rattlefmt"}
# What may be derived. `Drop` is Rattle's word for a type whose values may be dropped, and goes.
DERIVES = {"Clone", "Copy", "Debug", "Default", "Eq", "Hash", "Ord", "PartialEq", "PartialOrd"}
# The derive of the kit's crate `thiserror`: what it makes is written, so that the crate for Cargo has no dependency.
DERIVED_ERROR = "thiserror::Error"
# What Rust's users expect of a type too: these derives take the place of `Drop`.
DERIVED = {
    ("text_stream/decoder.rt", "Decoder"): "Clone",
    ("text_positions/position.rt", "Position"): "Clone",
    ("recoding/recoder.rt", "Recoder"): "Clone",
    ("recoding/held.rt", "Held"): "Clone",
    ("surveys/guesses.rt", "Guess"): "PartialOrd, Ord, Hash",
    ("surveys/guess_lists.rt", "Guesses"): "Clone, Copy",
    ("surveys/survey.rt", "Survey"): "Hash",
    ("surveys/utf8_counts.rt", "Utf8Counts"): "Hash",
    ("surveys/unit_counts.rt", "UnitCounts"): "Hash",
    ("text_buffers/buffers/counts.rt", "Counts"): "Default, Hash",
    ("text_buffers/buffers/changes.rt", "Change"): "Default, Hash",
}
# Types with public fields to which more may come: a pattern of another crate needs `..`, and only this crate writes all fields.
NON_EXHAUSTIVE = {("text_buffers/buffers/counts.rt", "Counts"), ("text_buffers/buffers/changes.rt", "Change"), ("surveys/guesses.rt", "Guess"),
                  ("surveys/survey.rt", "Survey"), ("surveys/utf8_counts.rt", "Utf8Counts"), ("surveys/unit_counts.rt", "UnitCounts")}
# Macros of std that mean in Rust what they mean in Rattle.
MACROS = {"assert", "assert_eq", "assert_ne", "debug_assert", "macro_rules", "matches", "panic", "unreachable", "write"}

# Modules of std that are the same in `core`; those that src/support has in their place, with the names that it has; and those that
# only a build with std has.
CORE = {"array", "ascii", "borrow", "char", "cmp", "convert", "error", "fmt", "hash", "iter", "marker", "mem", "num", "ops", "slice", "str"}
SUPPORT = {
    "alloc": {"AllocError", "Allocator", "Global"},
    "simd": {"ToBytes", "prelude"},
}
GATED = {"io": {"Read", "Result", "ErrorKind"}}
# Names of Rattle's prelude that mean something else in Rust's: src/support has these, and has no other.
PRELUDE = {"Vec", "String"}
NOT_THERE = {"Arc", "Box", "Cow", "HashMap", "Rc", "ToOwned", "ToString", "to_owned", "to_string", "to_vec"}

# Functions of a primitive type that Rust has there since 1.87, and before that in a module.
OLDER = {("str", "from_utf8_unchecked"): "core::str"}

# What of std is `unsafe` in Rattle too: a source calls it in a block of its own, and has nothing else that is unsafe.
UNSAFE_OF_STD = {("char", "from_u32_unchecked"), ("str", "from_utf8_unchecked")}
# Rust's own names of what std is made of: a source has `std` alone.
OTHER_ROOTS = {"alloc", "core"}

# Words that no erased text holds. (`invariant` is a ghost member, which goes with its `ghost`.)
GHOST_WORDS = {"assumption", "decreases", "ensures", "ghost", "ground", "invariant", "requires"}

# Words of a clause that asks nothing but that the source of an adapter may be asked, and ends: in Rust each may, and a source that
# does not end is a loop that does not.
OF_SOURCES = {"I", "Self", "self", "source", "iter", "can_next", "remaining", "IsFinite", "old", "now", "ended", "is_begun", "false", "true"}

# Public functions with a requirement that a safe caller may violate: the requirement as its clauses write it, and the
# test that is equivalent. If the clauses change, the eraser stops.
ASSERTED = {
    "utf_chars/utf8_char.rt:to_slice": ("HasRoomForCode 4 (utf8 self) dst.old", "self.len() <= dst.len()"),
    "utf_chars/utf16_char.rt:to_slice": ("HasRoomForCode 2 (utf16 self) dst.old", "self.len() <= dst.len()"),
    "text_runs/boundaries.rt:floor": ("place ≤ length bytes.now", "place <= bytes.len()"),
    "text_runs/boundaries.rt:ceil": ("place ≤ length bytes.now", "place <= bytes.len()"),
    "text_runs/boundaries.rt:previous": ("0 < place; place ≤ length bytes.now", "0 < place && place <= bytes.len()"),
    "text_runs/boundaries.rt:following": ("place < length bytes.now", "place < bytes.len()"),
    "text_runs/splits.rt:split_ascii": ("separator < 128", "separator < 128"),
    "text_buffers/buffers/text_buffer.rt:replace": (
        "start ≤ end; end ≤ length self.old",
        "start <= end && end <= self.len()",
    ),
    "text_buffers/buffers/text_buffer.rt:insert": ("offset ≤ length self.old", "offset <= self.len()"),
    "text_buffers/buffers/text_buffer.rt:remove": (
        "start ≤ end; end ≤ length self.old",
        "start <= end && end <= self.len()",
    ),
    "text_buffers/piece_table.rt:replace": (
        "start ≤ end; end ≤ length self.old.bytes",
        "start <= end && end <= self.bytes.len()",
    ),
}

# Functions that only the crate calls: `public` means the whole crate there. Users have traits and comparisons in their place.
OWN = {
    "utf_base/errors.rt": {"is_kind", "is_kind_of", "new"},
    "utf_chars/utf8_char.rt": {"as_bytes", "eq_char", "eq_utf16", "eq_u8", "cmp_char", "cmp_utf16"},
    "encode_unicode/decoding_iterators.rt": {"next_back_counted"},
    "utf_chars/utf16_char.rt": {"eq_char", "eq_utf8", "eq_u8", "eq_u16", "cmp_char", "cmp_utf8", "as_units"},
}

# Public traits whose methods ask something of their callers, or promise what proofs depend on: only the proved text calls and implements
# them, and no hand-written file may name them but to implement them.
OWN_TRAITS = {"text_stream/located.rt:FromPiece", "text_stream/piece_runs.rt:Kept", "utf_lanes/replacements.rt:Mending"}

# Fields that the hand-written text reads: whether a merger holds a unit.
OPENED = {"encode_unicode/utf16_merger.rt": ("Utf16CharMerger", "held")}

# What C passes but for slices, as support/c.rs takes it: numbers; what C has filled before; what a call writes; what is left of a slice.
PASSED = {
    "u8", "u32", "usize", "& NodyDecoder", "& NodyRecoder", "& mut NodyDecoder", "& mut NodyPosition", "& mut NodyRecoder", "& mut u8", "& mut u64", "& mut usize",
    "& mut NodyFault", "& Survey", "& SurveyorState", "& mut Survey", "& mut SurveyorState", "& mut & 'static NodyName", "& mut & 'static NodySentence", "& mut NodyBytes < '_ >", "& mut NodyUnits < '_ >",
}

# Functions that give a text, or take one, and ask it for only its bytes (windows.py).
BY_BYTES = {"utf_chars/utf8_char.rt": ["from_str_start"], "encode_unicode/text_window.rt": ["as_str"]}

# Methods of the crate alone that take a character by reference (windows.py).
LENT = {"utf_chars/utf8_char.rt": ["scalar"]}
# What is asked of the second unit of a code, and how it is asked of both in one test (windows.py).
OF_BOTH = {"utf_chars/utf16_char.rt": ("second == 0", "(first as u32 | (second as u32) << 16) < 0x1_0000")}

# What goes by lanes: of these files there is a copy for CPUs with AVX2 (wide.py), over the types of all other files.
WIDE = ("utf_lanes/",) + tuple(f"recoding/{it}.rt" for it in (
    "ascii_to_utf16", "block_output", "engine", "fills", "kernels", "list", "output", "recoder_runs", "room", "turned", "utf16_to_utf8",
    "utf8_to_utf16",
)) + ("text_runs/runs/piece_counts.rt", "text_stream/runs/fault_lists.rt")

# Of these files those that have only types and traits: they exist once, and the copy re-exports them.
ONCE = {"utf_lanes/byte_order.rt", "utf_lanes/replacements.rt"}

# Of these files the items that exist once: what runs byte by byte, and what that needs. The copy of the file imports them.
SHARED = {
    "recoding/engine.rt": ("Reached", "recode_faults", "recode_within", "recode_text_within"),
    "recoding/room.rt": ("Room",),
}

# Outlined methods that the copy inlines: a method of a trait is not compiled for that CPU, so what it does with vectors would be calls.
IN_LINE = {"recoding/kernels.rt:put_text"}

# A trait of which all but one method, which has vectors as parameters, exist once: in the copy it has only that one, by another name, and
# extends the other trait.
EXTENDED = ("Output", ("room", "put", "put_byte"), "put_wide", "put_wider")


def is_wide(name):
    return name not in ONCE and any(name.startswith(it) for it in WIDE)


# Generic functions that are outlined since they run rarely. rustc exports what is `#[inline(never)]` and generic for all types that any caller
# names, also those with which LLVM finds that no call is left; these become `#[cold]`, of which only the called ones are compiled.
COLD = {
    "recoding/engine.rt:recode_faults", "recoding/engine.rt:recode_within", "recoding/engine.rt:recode_text_within",
    "recoding/form_calls.rt:put_shown", "recoding/kernels.rt:copy_damaged", "recoding/kernels.rt:widen_damaged", "recoding/text.rt:put_at_end",
}

# The functions that select which copy runs: how long the input is, and the result of the other copy.
CHOSEN = {
    "utf_lanes/text_blocks.rt:text_len": ("bytes.len()", "OTHER(bytes)"),
    "utf_lanes/starts.rt:starts_in": ("bytes.len()", "OTHER(bytes)"),
    "utf_lanes/starts.rt:nth_start": ("bytes.len()", "OTHER(bytes, number)"),
    "utf_lanes/unit_starts.rt:unit_starts_in": ("units.len()", "OTHER(units)"),
    "utf_lanes/unit_starts.rt:nth_unit_start": ("units.len()", "OTHER(units, number)"),
    "utf_lanes/unit_starts.rt:unit_byte_starts_in": ("bytes.len()", "OTHER::<E>(bytes)"),
    "utf_lanes/unit_starts.rt:nth_unit_byte_start": ("bytes.len()", "OTHER::<E>(bytes, number)"),
    "utf_lanes/unit_blocks.rt:units_len": ("bytes.len()", "OTHER::<E>(bytes)"),
    "utf_lanes/paired_units.rt:paired_len": ("units.len()", "OTHER(units)"),
    "text_runs/runs/piece_counts.rt:piece_count": ("bytes.len()", "OTHER(bytes)"),
    "text_stream/runs/fault_lists.rt:window_faults": ("bytes.len()", "OTHER::<P>(bytes, offset, start, room)"),
    "recoding/recoder_runs.rt:recode_into": ("bytes.len()", "OTHER(way, from, to, bytes, room, place)"),
    "recoding/recoder_runs.rt:recode_whole": (
        "bytes.len()",
        "{ let did = OTHER(from, to, bytes, out); Run { read: did.read, replaced: did.replaced } }",
    ),
    "recoding/recoder_runs.rt:recode_to_fault": (
        "part.len()",
        "{ let did = OTHER(from, to, held, part, room); StrictRun { read: did.read, written: did.written, first: did.first } }",
    ),
}
