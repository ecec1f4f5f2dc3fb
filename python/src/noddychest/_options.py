"""The command line of `noddychest`: its commands and options, which are those of nody(1) as far as both have them."""
from __future__ import annotations

import argparse
import re
from collections.abc import Callable, Sequence
from typing import Any, NamedTuple, Optional, Union

from ._names import AUTO, form_of
from ._version import __version__

_ALL = ("check", "fix", "list", "recode", "pieces")
VERSION = f"noddychest {__version__}"
_MOST_SHOWN = 20


class WrongWords(Exception):
    """The words of the command line are wrong: what is to be said of that, and the usage."""


class _Command(NamedTuple):
    usage: str
    help: str
    statuses: str


COMMANDS = {
    "check": _Command("[OPTION..] [FILE..]", "say which files are not valid, and where and why", "0 valid, 1 invalid bytes"),
    "fix": _Command(
        "[OPTION..] FILE..", "replace invalid bytes in files, and leave valid files alone", "0 fixed or valid, 1 invalid bytes (only with --dry-run)"
    ),
    "list": _Command("[OPTION..] [FILE..]", "write a line for each character and each invalid byte", "0 valid, 1 invalid bytes"),
    "recode": _Command("[OPTION..] [-o FILE] [FILE]", "convert to another encoding", "0 converted, 1 invalid bytes (only with --errors strict)"),
    "pieces": _Command("[OPTION..] [FILE]", "list each character and each invalid byte, as nody-pieces(1) does", "0 valid, 1 invalid bytes"),
}


def _encoding(label: str, command: str) -> str:
    """The label of an encoding, or AUTO: that of the byte order mark."""
    return AUTO if label in (AUTO, "bom") else _encoding_made(label, command)


def _encoding_made(label: str, command: str) -> str:
    form_of(label)
    return label


# What the words after --errors are in the package.
_ERRORS = {"replace": "replace", "lossy": "lossy", "drop": "ignore", "windows-1252": "windows-1252", "latin1": "latin-1", "strict": "strict"}


def _errors(word: str, command: str) -> str:
    if command == "fix" and word == "strict":
        raise ValueError
    return _ERRORS[word]


def _unit(word: str, command: str) -> str:
    if word not in ("characters", "bytes"):
        raise ValueError
    return word


def _number(word: str, command: str) -> int:
    """A number in decimal, or in hexadecimal after 0x."""
    if not re.fullmatch("0[xX][0-9a-fA-F]+|[0-9]+", word) or int(word, 16 if word[:2] in ("0x", "0X") else 10) >= 1 << 64:
        raise ValueError
    return int(word, 16 if word[:2] in ("0x", "0X") else 10)


def _jobs(word: str, command: str) -> int:
    if _number(word, command) < 1:
        raise ValueError
    return _number(word, command)


def _suffix(word: str, command: str) -> str:
    if not word or "/" in word:
        raise ValueError
    return word


def _name(word: str, command: str) -> str:
    return word


class _Option(NamedTuple):
    """An option: the commands that take it, what follows it and how that is read, and its default."""

    words: tuple[str, ...]
    takers: tuple[str, ...]
    help: str
    metavar: Optional[str] = None
    read: Callable[[str, str], Any] = _name
    default: Any = None

    @property
    def name(self) -> str:
        return next(it for it in self.words if it.startswith("--"))


_OPTIONS = (
    _Option(("--encoding", "--from"), _ALL, "the encoding of the input: utf-8 (default), utf-16le, utf-16be, or auto: by its byte order mark",
            "ENCODING", _encoding, "utf8"),
    _Option(("--to",), ("recode",), "the encoding of the output; utf-8 by default", "ENCODING", _encoding_made, "utf8"),
    _Option(("--errors",), ("recode", "fix"), "what becomes of invalid bytes. replace: one U+FFFD for each (default); lossy: one for each maximal subpart, as browsers do; "
            "drop: nothing; windows-1252, latin1: each invalid byte of UTF-8 is taken for that; strict (recode): stop at the first", "HOW", _errors, "replace"),
    _Option(("-l", "--names"), ("check",), "write only the names of invalid files"),
    _Option(("-0", "--null"), ("check",), "end each name with a NUL instead of a line feed"),
    _Option(("-a", "--text"), ("check",), "take a binary file for text"),
    _Option(("-v", "--verbose"), ("check",), "name valid files too"),
    _Option(("--max",), ("check",), "show at most N invalid bytes of a file (20 by default; 0 shows all)", "N", _number),
    _Option(("--columns",), ("check",), "count columns in characters (default) or bytes", "UNIT", _unit, "characters"),
    _Option(("--backup",), ("fix",), "keep the old file under its name with SUFFIX", "SUFFIX", _suffix),
    _Option(("--dry-run",), ("fix",), "change nothing, and show the lines that would change"),
    _Option(("-o", "--output"), ("recode",), "write to this file, which is replaced only when all was written; --jobs needs it, and FILE", "FILE"),
    _Option(("--resume",), ("recode",), "go on where such a run, that was interrupted, came to; needs --output"),
    _Option(("-q", "--quiet"), ("check", "list", "recode", "fix"), "say less, and show no progress; check only sets its exit status"),
    _Option(("--json",), ("check", "list"), "write an object of JSON on each line"),
    _Option(("--jobs",), ("check", "recode"), "use N threads", "N", _jobs, 1),
    _Option(("-h", "--help"), _ALL, "show this help"),
    _Option(("--version",), _ALL, "show the version"),
)  # fmt: skip


class _Taken(argparse.Action):
    """Takes an option, if the command has it."""

    def __init__(self, option_strings: Sequence[str], dest: str, *, command: str, option: _Option, **more: Any) -> None:
        super().__init__(option_strings, dest, **more)
        self._command, self._option = command, option

    def __call__(self, parser: object, asked: argparse.Namespace, value: Union[str, Sequence[Any], None], word: Optional[str] = None) -> None:
        if self._command not in self._option.takers:
            raise WrongWords(f"{self._command} does not take {self._option.name}")
        if not isinstance(value, str):
            setattr(asked, self.dest, True)
            return
        try:
            setattr(asked, self.dest, self._option.read(value, self._command))
        except (ValueError, LookupError):
            raise WrongWords(f"{self._option.name} does not take '{value}'") from None


class _Parser(argparse.ArgumentParser):
    def error(self, message: str) -> Any:
        raise WrongWords(message)


def _parser_of(command: str) -> _Parser:
    about = COMMANDS[command]
    description = f"{about.help[0].upper()}{about.help[1:]}."
    parser = _Parser(prog="noddychest", usage=f"noddychest {command} {about.usage}", description=description, exit_on_error=False, add_help=False,
                     epilog=f"Exit status: {about.statuses}, 2 wrong arguments, 3 a file could not be read or written.")
    for it in _OPTIONS:
        value: dict[str, Any] = {"nargs": 0} if it.metavar is None else {"metavar": it.metavar}
        parser.add_argument(*it.words, dest=it.name[2:].replace("-", "_"), action=_Taken, command=command, option=it, default=it.default,
                            help=it.help if command in it.takers else argparse.SUPPRESS, **value)
    return parser


_VALUED = {word for it in _OPTIONS if it.metavar is not None for word in it.words}


def _apart(words: Sequence[str]) -> list[str]:
    """The letters of each word apart, and each value joined to its option. So a value may begin with a minus, as for getopt_long."""
    made, left = [], iter(words)
    for word in left:
        while re.match("-[^-].", word, re.DOTALL) and word[:2] not in _VALUED:
            made.append(word[:2])
            word = "-" + word[2:]
        value = next(left, None) if word in _VALUED else None
        made.append(word if value is None else f"{word}={value}" if word.startswith("--") else word + value)
    return made


def _split(words: Sequence[str]) -> tuple[list[str], list[str]]:
    """The words before --, and those after it, which are all files."""
    end = words.index("--") if "--" in words else len(words)
    return list(words[:end]), list(words[end + 1 :])


def _wrong_with(asked: argparse.Namespace) -> Optional[str]:
    """What is wrong with the words together, or None."""
    if asked.command == "fix" and (not asked.files or "-" in asked.files):
        return "fix takes files"
    if asked.null and not asked.names:
        return "-0 goes with -l"
    if asked.command in ("recode", "pieces") and len(asked.files) > 1:
        return f"{asked.command} takes one FILE"
    if asked.output is None:
        return "--jobs and --resume need --output" if asked.command == "recode" and (asked.jobs > 1 or asked.resume) else None
    if asked.output == "-":
        return "--output needs the name of a file: without it the text goes to standard output"
    return "--output needs a FILE" if asked.files in ([], ["-"]) else None


def asked_by(command: str, words: Sequence[str]) -> argparse.Namespace:
    """What the words after a command ask for; `answer` is a text to write instead. Raises WrongWords."""
    before, after = _split(words)
    parser = _parser_of(command)
    try:
        asked, rest = parser.parse_known_args(_apart(before))
    except argparse.ArgumentError as error:
        if error.argument_name is None:
            raise WrongWords(error.message) from None
        wrong = next(it for it in _OPTIONS if error.argument_name == "/".join(it.words))
        raise WrongWords(f"{wrong.name} {'takes no value' if wrong.metavar is None else 'needs a value'}") from None
    unknown = next((it for it in rest if it.startswith("-") and it != "-"), None)
    if unknown is not None:
        raise WrongWords(f"there is no option '{unknown}'")
    asked.command, asked.files = command, rest + after
    asked.answer = parser.format_help().rstrip() if asked.help else VERSION if asked.version else None
    if asked.answer is not None:
        return asked
    together = _wrong_with(asked)
    if together is not None:
        raise WrongWords(together)
    if asked.max is None:
        asked.max = 0 if asked.json else _MOST_SHOWN
    return asked


def usage_of(command: str) -> str:
    return f"usage: noddychest {command} {COMMANDS[command].usage}"


def help_of_all() -> str:
    lines = [f"  noddychest {name:8} {it.help}" for name, it in COMMANDS.items()]
    return "\n".join(["usage: noddychest COMMAND [OPTION..] [FILE..]", "", *lines, "", "noddychest COMMAND --help lists the options of a command."])


SHORT_USAGE = f"usage: noddychest {'|'.join(COMMANDS)} [OPTION..] [FILE..]; noddychest --help says more"
