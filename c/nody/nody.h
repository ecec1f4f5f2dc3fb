/* What the files of the program `nody` share: requests, blocks of input, output, and what each command does with a block.
 *
 *   main.c       runs a command on its inputs      cut.c       where a block may be cut, and its pieces
 *   options.c    commands, options, help           places.c    lines and columns
 *   inputs.c     names, lists of names, folders    check.c     nody check
 *   labels.c     names of encodings                context.c   the line around an invalid byte, colours
 *   source.c     reads blocks                      follow.c    nody check --follow
 *   workers.c    threads over blocks, in order     count.c     nody count
 *   output.c     buffered output                   list.c      nody list
 *   system.h     the system: posix.c, windows.c    at.c        nody at
 *   replace.c    writes a file anew, or in place   recode.c    nody recode
 *   progress.c   the progress bar                  fix.c       nody fix
 *   text.h       what nody view is made of         view.c      nody view
 *
 * The input is read in blocks, each of which ends with a piece that no later byte changes. So blocks are worked on one by one, by
 * any number of threads, and what came of them is put out in order. */
#ifndef NODY_H
#define NODY_H

#ifndef _XOPEN_SOURCE
#define _XOPEN_SOURCE 700
#endif
#ifndef _DARWIN_C_SOURCE
#define _DARWIN_C_SOURCE
#endif

#include "noddychest.h"
#include "system.h"

/* The size of a read, or one byte more if blocks are read independently. (tests compile the program with a few bytes, so that blocks end
 * everywhere) */
#ifndef BLOCK
#define BLOCK (1 << 18)
#endif

/* The most bytes at the end of a block that the next one decides. A block that is read independently has that many before and after it. */
enum { MOST_HELD = 3, STRIDE = (BLOCK + 1) / 2 * 2, LEAD = MOST_HELD + 1, BLOCK_ROOM = LEAD + STRIDE + MOST_HELD };

/* The status that the program ends with: the highest of all files. */
enum status { IS_VALID = 0, IS_INVALID = 1, IS_WRONG = 2, HAS_FAILED = 3 };

/* Commands. Each has a bit, so that an option can say which take it. */
enum command_bit { CHECK = 1, LIST = 2, COUNT = 4, AT = 8, RECODE = 16, FIX = 32, VIEW = 64 };

/* What becomes of invalid bytes. `ways` has the words for it. */
enum errors { REPLACE, LOSSY, DROP, WINDOWS_1252, LATIN_1, STRICT };

enum when { AUTO, ALWAYS, NEVER };

/* What a column counts: characters and invalid bytes; bytes; or cells of a terminal. */
enum columns { CHARACTERS, BYTES, DISPLAY };

/* A word that an option takes as a value. A table of these ends with a NULL. */
struct word {
    const char *word;
    int value;
    const char *help;
};
extern const struct word ways[];

/* What the words of the command line ask for. */
struct request {
    enum command_bit bit;
    nody_encoding_t from, to;
    bool is_by_bom; /* `from` is what the byte order mark says */
    int errors, columns, color, context; /* values of the enums above */
    bool is_quiet, is_json, is_followed, is_in_place, is_recursive, is_verbose;
    bool is_named, is_nul; /* only names are written, each ended by a NUL */
    bool is_text;          /* binary files are taken for text */
    bool has_mark;         /* the output begins with a byte order mark */
    bool is_dry;           /* nothing is changed */
    bool has_most;
    uint64_t most;         /* how many invalid bytes of a file are shown */
    size_t jobs;
    const char *into;      /* the file to write, or NULL */
    int file;              /* the open descriptor to write, or -1 */
    const char *backup;    /* what is added to the name of an old file that is kept, or NULL */
    const char *names_from; /* the list of names, or NULL */
    const char **excluded;
    size_t excluded_count;
    const char *where;     /* an offset, or a line and a column */
};

struct run;

struct command_spec {
    const char *name;
    enum command_bit bit;
    enum status (*run)(struct run *run);
    const char *usage, *help, *statuses;
};

const struct command_spec *command_of(const char *name);
bool takes_words(struct request *request, const struct command_spec *command, int argc, char **argv);
bool is_number(const char *word, uint64_t least, uint64_t *number);
void show_help(void);
void show_version(void);

/* ---- Names of inputs */

/* How an input was found: named by the user, or in a folder. What is in a folder may be a link by the time that it is opened. */
enum found_how { IS_NAMED, IS_FOUND };

/* Who visits the inputs, and is notified of those that fail. */
struct inputs {
    const struct request *request;
    void (*visit)(struct inputs *inputs, const char *name, enum found_how how);
    void (*fail)(struct inputs *inputs, const char *name, const char *why);
    void (*end_folder)(struct inputs *inputs, const char *name);
    bool (*has_ended)(const struct inputs *inputs);
    enum status status;
    uint64_t binaries; /* invalid binary files in the folder, which are only counted */
};

void visit_inputs(struct inputs *inputs, int count, char **names);

/* ---- Output */

struct output {
    int file, error;
    bool is_shown; /* on a terminal, which can have a progress bar */
    size_t len;
    char *room;
};

/* Standard error, where messages go. */
extern struct output err;

bool has_waited(int file, short event);
bool open_output(struct output *out, int file);
bool flush_output(struct output *out);
void close_output(struct output *out);
void put(struct output *out, const void *bytes, size_t len);
void put_text(struct output *out, const char *text);
void put_byte(struct output *out, char byte);
void put_number(struct output *out, uint64_t number);
void put_grouped(struct output *out, uint64_t number);
void put_hex(struct output *out, uint64_t number, int digits);
void put_json(struct output *out, const char *text);
void put_name(struct output *out, const char *name);
void put_member(struct output *out, const char *before, uint64_t number);

bool is_shown(uint32_t scalar);
enum { SHOWN_ROOM = 16 };
size_t show_piece(char *shown, const char *bytes, const nody_piece_t *piece);

/* ---- Input */

struct source {
    const char *name;
    int file;
    bool is_by_bom, is_followed, has_ended, is_shorter;
    bool is_idle; /* it is followed, and has no more now */
    bool is_apart; /* blocks are read apart, at the same time */
    int error;     /* of a read, or 0 */
    nody_encoding_t encoding;
    struct stat about; /* when it was opened or, if it is followed, last read */
    off_t origin;      /* where the input begins in the file */
    uint64_t at;       /* the offset of the next block */
    size_t held, mark; /* the length of a byte order mark that named the encoding, once it was read */
    uint8_t holds[MOST_HELD];
};

/* A part of the input that begins and ends between pieces. */
struct block {
    uint8_t *room, *bytes;
    size_t len;  /* what is there */
    size_t end;  /* pieces that begin before it are decided by what is there */
    size_t mark; /* the length of a byte order mark that named the encoding: it is the front of the input */
    uint64_t at; /* the offset of its first byte */
    nody_encoding_t encoding;
    bool is_last;
    int error; /* of reading it apart, or 0 */
};

bool open_source(struct source *source, const char *name, const struct request *request, enum found_how how);
size_t read_at(const struct source *source, uint8_t *bytes, size_t room, uint64_t at, int *error);
bool take_block(struct source *source, struct block *block);
void read_apart(struct source *source);
void load_block(const struct source *source, struct block *block, uint64_t number);
void end_source(struct source *source, uint64_t at);
bool lock_source(struct source *source);
bool is_source(const struct source *source, const struct stat *about);
bool is_source_linked(struct source *source);
bool is_source_unchanged(const struct source *source, const char *name);
void close_source(struct source *source);
uint64_t size_of_source(const struct source *source);
bool is_shorter_now(const struct source *source);

/* A file that is written next to its final name, and gets that name once all is written. */
struct replacement {
    char *name, *temporary;
    bool is_direct; /* the name is a device or a pipe, which is written as it is */
    int file;
};

bool make_temporary(struct replacement *it, const struct stat *about);
bool flush_replacement(struct replacement *it);
bool keep_replacement(struct replacement *it, struct source *replaced);
void drop_replacement(struct replacement *it);
int descriptor_of(const char *name);
void on_signals(const int *numbers, size_t count, void (*act)(int number));

/* ---- Pieces */

size_t undecided_len(nody_encoding_t encoding, const uint8_t *bytes, size_t len);
size_t cut_before(nody_encoding_t encoding, const uint8_t *bytes, size_t len, size_t at);
nody_piece_t piece_at(nody_encoding_t encoding, const uint8_t *bytes, size_t len);
size_t valid_up_to(nody_encoding_t encoding, const uint8_t *bytes, size_t len);
uint64_t count_line_feeds(nody_encoding_t encoding, const uint8_t *bytes, size_t len);

/* A position in text, relative to the front of a block: a number of lines, and then of columns in the last line. If columns are cells, a tab
 * goes to the next multiple of eight, which depends on where the block begins: `before_tab` has the cells up to the first tab of the block's
 * first line, and `columns` those after it. */
struct place {
    uint64_t lines, columns, before_tab;
    bool has_tab;
};

void go_on(struct place *place, int columns, nody_encoding_t encoding, const uint8_t *bytes, size_t len);
unsigned width_of(uint32_t scalar);
void set_widths(void);
void add_place(struct place *place, const struct place *more);

/* An invalid byte of a block, or an invalid unit. */
struct found {
    size_t at; /* in the block */
    nody_piece_t piece;
    struct place place;
};

/* ---- Work on blocks */

/* A block, and what came of the work on it. */
struct worker {
    struct run *run;
    struct block block;
    bool is_ready;   /* to tell of */
    bool has_failed; /* there was no memory */
    struct found *found;
    size_t count, room;
    uint64_t more;           /* invalid bytes after those */
    struct place end;        /* the place of the block's end */
    uint64_t characters;
    uint64_t kinds[NODY_KIND_NONE];
    uint8_t *made;
    size_t made_len, made_room;
    uint64_t replaced;
};

/* What a command does with an input. */
struct command {
    void (*work)(struct worker *worker);                 /* in any order, at the same time */
    void (*tell)(struct run *run, struct worker *worker); /* in order, one by one */
};

/* One input of a command, and what is known of it so far. */
struct run {
    const struct request *request;
    const struct command *command;
    struct source source;
    struct output *out;
    bool has_stopped; /* the command needs no more of the input */
    bool has_no_memory;
    enum found_how how;
    bool is_binary;
    uint64_t first;      /* the offset of the first invalid byte of a binary file */
    uint64_t last_line;  /* the line that was shown last, from 1 */
    bool has_output; /* recode --bom: the front of the output is settled */
    bool is_same; /* a file is replaced by its own converted text, and that is the text itself so far */
    uint64_t bytes, characters, invalid;
    uint64_t kinds[NODY_KIND_NONE];
    struct place place; /* the end of what was reported */
};

void run_blocks(struct run *run);
bool run_block(struct run *run, struct worker *worker);
bool open_worker(struct worker *worker, struct run *run);
void close_worker(struct worker *worker);
bool has_room(struct worker *worker, size_t room);
size_t find_invalid(struct worker *worker, uint64_t most, bool has_places);

enum status run_check(struct run *run);
enum status run_count(struct run *run);
enum status run_list(struct run *run);
enum status run_recode(struct run *run);
enum status run_at(struct run *run);
enum status run_fix(struct run *run);
enum status run_view(struct run *run);
enum status run_followed(const struct request *request, struct output *out, int count, char **names);

/* ---- Files that are written anew */

/* Writes the output of a command for its input to `out`. */
typedef enum status rewrite(struct run *run, struct output *out);

enum status write_into(struct run *run, const char *into, rewrite *write);
enum status recode_to(struct run *run, struct output *out);
size_t replace_invalid(nody_recoder_t *recoder, int errors, const uint8_t *bytes, size_t len, uint8_t *out, size_t room);
enum status refuses(const char *name, const char *why);
void tell_replaced(const struct run *run);

/* ---- What is said */

extern const struct command check_command;
enum status end_check(struct run *run);
bool is_only_counted(const struct run *run);
void put_context(struct run *run, const struct block *block, const struct found *found);
void put_change(struct run *run, const struct block *block, const struct found *found);
bool is_colored(const struct request *request, const struct output *out);
void set_context(struct request *request, const struct output *out);
void put_piece_json(struct run *run, uint64_t offset, const uint8_t *bytes, const nody_piece_t *piece, const char *more);
void put_piece(struct output *out, uint64_t offset, const uint8_t *bytes, const nody_piece_t *piece);
void work_not(struct worker *worker);

bool encoding_of_label(const char *label, nody_encoding_t *encoding);
const char *name_of_encoding(nody_encoding_t encoding);
const char *noun_of_invalid(nody_encoding_t encoding, uint64_t count);
void put_found(struct run *run, struct output *out, const struct block *block, const struct found *found);
void complain(const char *name, const char *why);
enum status tell_failure(struct run *run);

void start_progress(bool is_quiet);
void show_progress(const struct run *run);
void hide_progress(void);

#endif
