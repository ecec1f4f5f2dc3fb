/* Commands and options: what the command line may say, and the help about it. */
#include "nody.h"

#include <getopt.h>
#include <stdlib.h>
#include <string.h>

enum { ALL = CHECK | LIST | COUNT | AT | RECODE | FIX | VIEW };

const struct command_spec commands[] = {
    {"check", CHECK, run_check, "[OPTION..] [FILE..]", "say which files are not valid, and where and why", "0 valid, 1 invalid bytes"},
    {"fix", FIX, run_fix, "[OPTION..] FILE..", "replace invalid bytes in files, and leave valid files alone", "0 fixed or valid, 1 invalid bytes (only with --dry-run)"},
    {"view", VIEW, run_view, "[OPTION..] [FILE]", "show a text of any size on the terminal, each invalid byte marked", "0 shown"},
    {"count", COUNT, run_count, "[OPTION..] [FILE..]", "count bytes, characters, lines and invalid bytes", "0 valid, 1 invalid bytes"},
    {"list", LIST, run_list, "[OPTION..] [FILE..]", "write a line for each character and each invalid byte", "0 valid, 1 invalid bytes"},
    {"at", AT, run_at, "[OPTION..] FILE OFFSET|LINE:COLUMN", "show what is at an offset, and around it", "0 a character, 1 an invalid byte"},
    {"recode", RECODE, run_recode, "[OPTION..] [-o FILE] [FILE]\n       nody recode --in-place [OPTION..] FILE..", "convert to another encoding", "0 converted, 1 invalid bytes (only with --errors strict)"},
};
enum { COMMANDS = sizeof commands / sizeof *commands };

const struct word ways[] = {
    {"replace", REPLACE, "one U+FFFD for each invalid byte (default)"},
    {"lossy", LOSSY, "one U+FFFD for each maximal subpart, as browsers do"},
    {"drop", DROP, "leave invalid bytes out"},
    {"windows-1252", WINDOWS_1252, "take each invalid byte of UTF-8 for Windows-1252"},
    {"latin1", LATIN_1, "take each invalid byte of UTF-8 for ISO-8859-1"},
    {"strict", STRICT, "stop at the first invalid byte"},
    {NULL, 0, NULL},
};
static const struct word whens[] = {{"auto", AUTO, NULL}, {"always", ALWAYS, NULL}, {"never", NEVER, NULL}, {NULL, 0, NULL}};
static const struct word units[] = {{"characters", CHARACTERS, NULL}, {"bytes", BYTES, NULL}, {"display", DISPLAY, NULL}, {NULL, 0, NULL}};

/* Options without a letter have numbers that are no letters either, of which musl knows those of Unicode. */
enum {
    FROM = 0x110000, TO, ERRORS, MAX, JSON, FOLLOW, JOBS, IN_PLACE, VERSION, EXCLUDE, FILES_FROM, CONTEXT, NO_CONTEXT, COLOR, COLUMNS, BOM, BACKUP, DRY_RUN
};

static const struct spec {
    const char *name;
    int value;
    unsigned takers;      /* the commands that take it */
    const char *argument; /* what follows it, or NULL */
    const char *help;     /* NULL for another name of the option before */
} specs[] = {
    {"encoding", FROM, ALL, "ENCODING", "the encoding of the input, also --from: utf-8 (default), utf-16le, utf-16be, or auto: by its byte order mark"},
    {"from", FROM, ALL, "ENCODING", NULL},
    {"to", TO, RECODE, "ENCODING", "the encoding of the output; utf-8 by default"},
    {"errors", ERRORS, RECODE | FIX, "HOW", "what becomes of invalid bytes"},
    {"bom", BOM, RECODE, NULL, "begin the output with a byte order mark"},
    {"names", 'l', CHECK, NULL, "write only the names of invalid files"},
    {"null", '0', CHECK, NULL, "end each name with a NUL instead of a line feed"},
    {"recursive", 'r', CHECK, NULL, "go into folders; symbolic links in them are not followed"},
    {"files0-from", FILES_FROM, CHECK, "FILE", "take the names of the files from FILE, each ended by a NUL; - is standard input"},
    {"exclude", EXCLUDE, CHECK, "GLOB", "pass over files and folders with such a name"},
    {"text", 'a', CHECK, NULL, "take a binary file for text"},
    {"verbose", 'v', CHECK, NULL, "name valid files too"},
    {"max", MAX, CHECK, "N", "show at most N invalid bytes of a file (20 by default; 0 shows all)"},
    {"columns", COLUMNS, CHECK | AT, "UNIT", "count columns in characters (default), bytes or display cells"},
    {"context", CONTEXT, CHECK, NULL, "show the line with each invalid byte, as is done on a terminal"},
    {"no-context", NO_CONTEXT, CHECK, NULL, "do not show it"},
    {"color", COLOR, CHECK | FIX | VIEW, "WHEN", "auto (default), always or never"},
    {"follow", FOLLOW, CHECK, NULL, "wait for what is added to the files, as tail -F does"},
    {"output", 'o', RECODE, "FILE", "write to this file, which is replaced only when all was written"},
    {"in-place", IN_PLACE, RECODE, NULL, "replace each file by what it becomes"},
    {"backup", BACKUP, FIX, "SUFFIX", "keep the old file under its name with SUFFIX"},
    {"dry-run", DRY_RUN, FIX, NULL, "change nothing, and show the lines that would change"},
    {"quiet", 'q', CHECK | LIST | COUNT | RECODE | FIX, NULL, "say less, and show no progress; check only sets its exit status"},
    {"json", JSON, CHECK | LIST | COUNT | AT, NULL, "write an object of JSON on each line"},
    {"jobs", JOBS, CHECK | COUNT | RECODE | FIX, "N", "use N threads"},
    {"help", 'h', ALL, NULL, "show this help"},
    {"version", VERSION, ALL, NULL, "show the version"},
};
enum { SPECS = sizeof specs / sizeof *specs };

static const struct spec *spec_of(int value) {
    for (int i = 0; i < SPECS; i++)
        if (specs[i].value == value) return &specs[i];
    return NULL;
}

/* ---- Help */

static void show_usage(FILE *to, const struct command_spec *command) {
    fprintf(to, "usage: nody %s %s\n", command->name, command->usage);
}

/* Returns true if a command takes this word for --errors. */
static bool has_way(enum command_bit command, int way) {
    return command != FIX || way != STRICT;
}

static void show_option(const struct spec *spec, enum command_bit command) {
    char shown[64];
    bool has_letter = spec->value < FROM;
    snprintf(shown, sizeof shown, "%s%c%s--%s%s%s", has_letter ? "-" : " ", has_letter ? spec->value : ' ', has_letter ? ", " : "  ", spec->name,
             spec->argument ? " " : "", spec->argument ? spec->argument : "");
    printf("  %-26s %s\n", shown, spec->help);
    for (const struct word *it = ways; spec->value == ERRORS && it->word; it++)
        if (has_way(command, it->value)) printf("  %-26s     %s: %s\n", "", it->word, it->help);
}

static void show_command(const struct command_spec *command) {
    show_usage(stdout, command);
    printf("%s.\n\n", command->help);
    for (int i = 0; i < SPECS; i++)
        if (specs[i].takers & (unsigned)command->bit && specs[i].help && !(IS_WINDOWS && specs[i].value == FOLLOW)) show_option(&specs[i], command->bit);
    printf("\nExit status: %s, 2 wrong arguments, 3 a file could not be read or written. man nody has more.\n", command->statuses);
}

void show_help(void) {
    puts("usage: nody COMMAND [OPTION..] [FILE..]\n");
    for (int i = 0; i < COMMANDS; i++)
        if (!(IS_WINDOWS && commands[i].bit == VIEW)) printf("  nody %-8s %s\n", commands[i].name, commands[i].help);
    puts("\nnody COMMAND --help lists the options of a command, and man nody has the rest.");
}

void show_version(void) {
    uint32_t version = nody_version();
    printf("nody %u.%u.%u\n", version / 1000000, version / 1000 % 1000, version % 1000);
}

const struct command_spec *command_of(const char *name) {
    for (int i = 0; i < COMMANDS; i++)
        if (strcmp(commands[i].name, name) == 0) return &commands[i];
    return NULL;
}

/* ---- Values */

/* Reads a number of at least `least`, in decimal, or in hexadecimal after 0x. */
bool is_number(const char *word, uint64_t least, uint64_t *number) {
    bool is_hex = word[0] == '0' && (word[1] == 'x' || word[1] == 'X');
    const char *digits = is_hex ? "0123456789abcdefABCDEF" : "0123456789", *front = word + (is_hex ? 2 : 0);
    if (!*front || front[strspn(front, digits)]) return false;
    errno = 0;
    *number = strtoull(front, NULL, is_hex ? 16 : 10);
    return errno == 0 && *number >= least;
}

/* Looks a word up; -1 if it is not there. */
static int value_of(const struct word *words, const char *word) {
    while (words->word && strcmp(words->word, word) != 0) words++;
    return words->word ? words->value : -1;
}

static bool takes_word(const struct word *words, const char *word, int *value) {
    *value = value_of(words, word);
    return *value >= 0;
}

static bool takes_encoding(struct request *request, const char *label) {
    request->is_by_bom = strcmp(label, "bom") == 0 || strcmp(label, "auto") == 0;
    return encoding_of_label(request->is_by_bom ? "utf-8" : label, &request->from);
}

static bool takes_jobs(struct request *request, const char *word) {
    uint64_t number;
    if (!is_number(word, 1, &number)) return false;
    request->jobs = number < 1000 ? (size_t)number : 1000;
    return true;
}

static bool takes_most(struct request *request, const char *word) {
    request->has_most = is_number(word, 0, &request->most);
    if (request->most == 0) request->most = UINT64_MAX;
    return request->has_most;
}

static bool takes_backup(struct request *request, const char *suffix) {
    request->backup = suffix;
    return *suffix && !strchr(suffix, '/');
}

/* Takes an option with a value; false if that is not one of its values. */
static bool takes_value(struct request *request, int option, const char *value) {
    switch (option) {
    case FROM: return takes_encoding(request, value);
    case TO: return encoding_of_label(value, &request->to);
    case ERRORS: return takes_word(ways, value, &request->errors) && has_way(request->bit, request->errors);
    case MAX: return takes_most(request, value);
    case JOBS: return takes_jobs(request, value);
    case COLOR: return takes_word(whens, value, &request->color);
    case COLUMNS: return takes_word(units, value, &request->columns);
    case BACKUP: return takes_backup(request, value);
    case FILES_FROM: request->names_from = value; return true;
    case EXCLUDE: request->excluded[request->excluded_count++] = value; return true;
    case 'o':
        request->file = descriptor_of(value);
        request->into = request->file < 0 ? value : NULL;
        return true;
    default: return false;
    }
}

static void take_flag(struct request *request, int option) {
    switch (option) {
    case 'q': request->is_quiet = true; break;
    case 'l': request->is_named = true; break;
    case '0': request->is_nul = true; break;
    case 'r': request->is_recursive = true; break;
    case 'a': request->is_text = true; break;
    case 'v': request->is_verbose = true; break;
    case CONTEXT: request->context = ALWAYS; break;
    case NO_CONTEXT: request->context = NEVER; break;
    case JSON: request->is_json = true; break;
    case FOLLOW: request->is_followed = true; break;
    case IN_PLACE: request->is_in_place = true; break;
    case BOM: request->has_mark = true; break;
    case DRY_RUN: request->is_dry = true; break;
    }
}

/* ---- The command line */

static void complain_of_value(const char *option, const char *value) {
    put_text(&err, "nody: --");
    put_text(&err, option);
    put_text(&err, " does not take '");
    put_name(&err, value);
    put_text(&err, "'\n");
    flush_output(&err);
}

/* Says what getopt_long found wrong: no such option, whose word it took last or whose letter is `optopt`; or a value that lacks, or is too
 * many. (its own messages have the word as it is, which may be the name of a file that commands a terminal) */
static void complain_of_option(const char *last) {
    const char letter[] = {'-', (char)optopt, 0};
    const struct spec *known = optopt ? spec_of(optopt) : NULL;
    put_text(&err, "nody: ");
    put_text(&err, known ? "--" : "there is no option '");
    put_name(&err, known ? known->name : optopt ? letter : last);
    put_text(&err, !known ? "'\n" : known->argument ? " needs a value\n" : " takes no value\n");
    flush_output(&err);
}

/* Fills the tables of getopt_long: all options, and those with letters. */
static void list_options(struct option *options, char *letters) {
    *letters++ = ':';
    for (int i = 0; i < SPECS; i++) {
        struct option option = {specs[i].name, specs[i].argument ? required_argument : no_argument, NULL, specs[i].value};
        options[i] = option;
        if (specs[i].value >= FROM) continue;
        *letters++ = (char)specs[i].value;
        if (specs[i].argument) *letters++ = ':';
    }
    *letters = 0;
    memset(&options[SPECS], 0, sizeof *options);
}

/* Takes the options; false if one is wrong, which is then said. */
static bool takes_options(struct request *request, const struct command_spec *command, int argc, char **argv) {
    struct option options[SPECS + 1];
    char letters[2 * SPECS + 2];
    opterr = 0;
    list_options(options, letters);
    for (int option; (option = getopt_long(argc, argv, letters, options, NULL)) != -1;) {
        if (option == '?' || option == ':') {
            complain_of_option(argv[optind - 1]);
            return false;
        }
        if (!(spec_of(option)->takers & (unsigned)command->bit)) {
            fprintf(stderr, "nody: %s does not take --%s\n", command->name, spec_of(option)->name);
            return false;
        }
        if (option == 'h') show_command(command);
        if (option == VERSION) show_version();
        if (option == 'h' || option == VERSION) exit(fflush(stdout) == 0 ? IS_VALID : HAS_FAILED);
        if (!optarg) take_flag(request, option);
        else if (!takes_value(request, option, optarg)) {
            complain_of_value(spec_of(option)->name, optarg);
            return false;
        }
    }
    return true;
}

/* What is wrong with the options and files together, or NULL. */
static const char *wrong_with(const struct request *request, int count, char **files) {
    bool has_input = false;
    for (int i = 0; i < count; i++) has_input |= strcmp(files[i], "-") == 0;
    if (IS_WINDOWS && request->bit == VIEW) return "view is not there on Windows";
    if (IS_WINDOWS && request->is_followed) return "--follow is not there on Windows";
    if (request->bit == AT && count != 2) return "at takes a FILE and an OFFSET, or LINE:COLUMN";
    if (request->bit == VIEW && count > 1) return "view takes one FILE";
    if (request->bit == FIX && (count == 0 || has_input)) return "fix takes files";
    if (request->names_from && count > 0) return "--files0-from and FILE do not go together";
    if (request->is_followed && (request->is_recursive || request->names_from)) return "--follow takes the names of files";
    if (request->is_followed && request->is_named) return "--follow and -l do not go together";
    if (request->is_nul && !request->is_named) return "-0 goes with -l";
    if (request->is_in_place && (request->into || request->file >= 0)) return "--in-place and -o do not go together";
    if (request->is_in_place && (count == 0 || has_input)) return "--in-place takes files";
    if (request->bit == RECODE && !request->is_in_place && count > 1) return "recode takes one FILE, and more with --in-place";
    return NULL;
}

/* Takes the words after the command; false if they are wrong, which is then said. */
bool takes_words(struct request *request, const struct command_spec *command, int argc, char **argv) {
    enum { MOST_SHOWN = 20 };
    request->bit = command->bit;
    request->is_by_bom = command->bit == VIEW;
    request->excluded = calloc((size_t)argc, sizeof *request->excluded);
    optind = 2;
    bool is_right = request->excluded && takes_options(request, command, argc, argv);
    if (!request->excluded) fputs("nody: there is no memory\n", stderr);
    const char *wrong = is_right ? wrong_with(request, argc - optind, argv + optind) : NULL;
    if (wrong) fprintf(stderr, "nody: %s\n", wrong);
    if (!is_right || wrong) show_usage(stderr, command);
    if (!request->has_most) request->most = command->bit != CHECK || request->is_json || request->is_followed ? UINT64_MAX : MOST_SHOWN;
    return is_right && !wrong;
}
