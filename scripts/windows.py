"""The proved crates for Windows: an LLVM module that was made for Linux on x86-64 becomes one for Windows, and its assembly one that GNU's
assembler takes. scripts/generate uses it.

The code is compiled anew from the module, so that calls have the convention of Windows and each function has a table of unwinding.
What differs between the two systems, and nothing else, is changed here: names are written without a mark in front, and one kind of
answer goes another way."""
import re

TARGET = "x86_64-w64-windows-gnu"
# Two calls of generated/system.c return their results in two registers, as on Linux.
PAIRS = re.compile(r"\b(call|declare) (\{ i64, i64 \}) @rattle_(alloc|realloc)\b")
# What a program asks of the system, and the names that generated/system.c gives it there.
ASKED = {"read": "noddychest_read", "write": "noddychest_write", "__write": "noddychest_write", "__sysv_signal": "noddychest_signal",
         "__x86_get_cpuid_feature_leaf": "noddychest_features", "main": "noddychest_main"}


class Unknown(Exception):
    """The module has something that was not seen before."""


def replaced_once(text, had, new):
    if text.count(had) != 1:
        raise Unknown(f"{text.count(had)} times {had!r}")
    return text.replace(had, new)


def of_system(text):
    """The names of the target, and tables of unwinding for all functions."""
    text = replaced_once(text, 'target datalayout = "e-m:e', 'target datalayout = "e-m:w')
    text, count = re.subn(r'(?m)^target triple = ".*"$', f'target triple = "{TARGET}"', text)
    if count != 1:
        raise Unknown(f"{count} lines of a target")
    text = re.sub(r'(?m)^(attributes #\d+ = \{ )(.*"target-cpu")', r"\1uwtable \2", text)
    # (these words ask for an inlined test of the stack; on Windows LLVM has one of its own, and would take them for a name)
    return text.replace('"probe-stack"="inline-asm" ', "").replace('"stack-probe-size"="3072" ', "")


def with_pairs_in_memory(text):
    """On Windows a struct of 16 bytes is returned in memory of the caller's: each exported call with such a result becomes private,
    and is wrapped by one with its name."""
    wrappers = []

    def private(line):
        name, given, attributes = line[1], line[2], line[3]
        parameters = re.findall(r"(\w+) noundef (%\w+)", given)
        if len(parameters) != given.count("%"):
            raise Unknown(f"the parameters of {name}")
        words = ", ".join(f"{kind} noundef {it}" for kind, it in parameters)
        wrappers.append(f"define void @{name}(ptr noalias sret({{ i64, i64 }}) align 8 %answer, {words}) {attributes} {{\n"
                        f"  %pair = call {{ i64, i64 }} @{name}.pair({words})\n"
                        "  store { i64, i64 } %pair, ptr %answer, align 8\n  ret void\n}\n")
        return f"define internal {{ i64, i64 }} @{name}.pair({given}) {attributes}"

    text = re.sub(r"(?m)^define \{ i64, i64 \} @(nody_\w+)\((.*?)\) (#\d+)", private, text)
    return "\n".join([text, *wrappers])


def library(text, level, chosen):
    """The module of the library for C. Of the calls that are there at two levels the names end in the level, and at v3 each other call is
    private."""
    def seen(line):
        is_private = level == "v3" and line[2] not in chosen
        return f"define {'internal ' if is_private else ''}{line[1]}@{line[2]}("

    text = with_pairs_in_memory(re.sub(r"(?m)^define (.*?)@(nody_\w+)\(", seen, of_system(text)))
    return re.sub(r"@(nody_\w+)\b(?!\.)", lambda it: f"{it[0]}_{level}" if it[1] in chosen else it[0], text)


def program(text):
    """The module of a program."""
    text = PAIRS.sub(r"\1 x86_64_sysvcc \2 @rattle_\3", of_system(text))
    text = re.sub(rf"@({'|'.join(ASKED)})\(", lambda it: f"@{ASKED[it[1]]}(", text)
    # (two names of Linux are one here, and may be declared once)
    declared = set()

    def once(line):
        is_first = line[1] not in declared
        declared.add(line[1])
        return line[0] if is_first else ""

    return re.sub(r"(?m)^declare .*?@(noddychest_\w+)\(.*\n", once, text)


def assembly(text):
    """As GNU's assembler takes it, which knows no marks of epilogues and no table of LLVM, no sections of one name, and no name in quotes
    where a name is defined."""
    text = re.sub(r"(?m)^\s*\.(addrsig\w*|seh_startepilogue|seh_endepilogue)\b.*\n", "", text)
    plain, sections = {}, {}

    def renamed(it):
        had = plain.setdefault(it[0], f"{re.sub(r'[^A-Za-z0-9]+', '_', it[0]).strip('_')}_{len(plain)}")
        return f"{'.L' if it[0].startswith(chr(34) + '.L') else ''}{had}"

    def changed(line):
        if re.match(r"\s*\.(ascii|asciz|ident|file)\b", line):
            return line
        if section := re.match(r'\s*\.section\s+(\.text|\.rdata|\.data)\b.*?,"(\w+)"', line):
            return f'\t.section {section[1]}$n{sections.setdefault(line.strip(), len(sections))},"{section[2]}"'
        return re.sub(r'"[^"]*::[^"]*"|"\.L[^"]*"', renamed, line)

    return "\n".join(map(changed, text.split("\n")))


def words(given):
    """The words that compile a module for Linux, as those that compile it for Windows."""
    return [*(f"--target={TARGET}" if it.startswith("--target=") else it for it in given if it not in ("-fPIC", "-fpic")), "-Wno-override-module"]
