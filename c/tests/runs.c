/* Runs the programs as a user does, and compares their output, their errors and their status with the rows of crates/conformance and
 * crates/run_vectors, and with what is required if reads, writes or allocations fail:
 *
 *   runs CRATES PIECES RECODE FAULTY_PIECES FAULTY_RECODE EXAMPLE_PIECES EXAMPLE_RECODE
 *
 * The FAULTY programs are linked with faults.c; the last two are those of c/examples. Each is run with the words of RUN before its own.
 * Prints what differs, and then `N passed, M failed`. */
#include "rows.h"

#include <fcntl.h>
#include <signal.h>
#include <sys/wait.h>
#include <unistd.h>

enum { MOST_WORDS = 10100 };

/* What a program is given, and what it wrote. Input and outputs are files that are used again and again. */
static int in_file, out_file, said_file;
static char *words[MOST_WORDS + 1], *run_words;

/* What a run is to end with. */
struct want {
    int status;
    const void *output;
    size_t len;
    const char *said; /* without its line feed */
    int may_stop;
};

static int temporary(void) {
    FILE *file = tmpfile();
    if (!file) stop("no temporary file", "for a run");
    return fileno(file);
}

static void set_file(int file, const void *bytes, size_t len) {
    if (ftruncate(file, 0) < 0 || (len && pwrite(file, bytes, len, 0) != (ssize_t)len)) stop("cannot write", "a temporary file");
    lseek(file, 0, SEEK_SET);
}

static char *contents(int file, size_t *len) {
    off_t end = lseek(file, 0, SEEK_END);
    char *bytes = block_of((size_t)end + 1);
    if (pread(file, bytes, (size_t)end, 0) != end) stop("cannot read", "a temporary file");
    bytes[*len = (size_t)end] = 0;
    return bytes;
}

/* The words of RUN, and then the program. Returns how many. */
static int start_words(char *program) {
    int count = 0;
    static char run[1000];
    if (!run_words) run_words = getenv("RUN") ? getenv("RUN") : "";
    snprintf(run, sizeof run, "%s", run_words);
    for (char *it = strtok(run, " "); it; it = strtok(NULL, " ")) words[count++] = it;
    words[count++] = program;
    words[count] = NULL;
    return count;
}

/* Runs the words with this standard output, and returns the status, or 1000 and the signal that ended it. */
static int run_to(int out, int is_bare) {
    int status = 0;
    pid_t child = fork();
    if (child == 0) {
        static char *none[] = {NULL};
        char **given = is_bare ? none : words;
        signal(SIGPIPE, SIG_DFL);
        dup2(in_file, 0);
        dup2(out, 1);
        dup2(said_file, 2);
        execvp(words[0], given);
        _exit(126);
    }
    if (child < 0 || waitpid(child, &status, 0) != child) stop("cannot start", words[0]);
    return WIFEXITED(status) ? WEXITSTATUS(status) : 1000 + WTERMSIG(status);
}

static int says(const char *want) {
    size_t len;
    char *said = contents(said_file, &len);
    int holds = *want ? len == strlen(want) + 1 && memcmp(said, want, len - 1) == 0 && said[len - 1] == '\n' : len == 0;
    free(said);
    return holds;
}

/* Runs the words, and says whether all is as it must be. A run that may stop early, since a write fails, wrote a part from the
 * front, and ends with 3, or with 2 if it had only an error to say. */
static int is_wanted(const void *input, size_t input_len, const struct want *want) {
    size_t len;
    set_file(in_file, input, input_len);
    set_file(out_file, "", 0);
    set_file(said_file, "", 0);
    int status = run_to(out_file, 0);
    char *output = contents(out_file, &len);
    int is_front = len <= want->len && memcmp(output, want->output, len) == 0;
    int is_whole = is_front && len == want->len && status == want->status && says(want->said);
    free(output);
    return is_whole || (want->may_stop && is_front && status == (want->status == 2 ? 2 : 3));
}

static void asks(char *program, char *word, char *other) {
    int count = start_words(program);
    words[count] = word;
    words[count + 1] = word ? other : NULL;
    words[count + 2] = NULL;
}

/* The lines of a column in place, with `;` for each line feed; the last may lack it. Answers their length. */
static size_t lines_of(char *column) {
    size_t len = strlen(column);
    if (len > 0 && column[len - 1] != ';') column[len++] = ';'; /* (the row has a `|`, or its end, there) */
    for (size_t i = 0; i < len; i++)
        if (column[i] == ';') column[i] = '\n';
    return len;
}

static void expect_lines(const uint8_t *input, size_t len, char *column, const char *which) {
    size_t lines = lines_of(column);
    int names_error = 0;
    for (size_t i = 0; i < lines; i++) names_error |= column[i] >= 'A' && column[i] <= 'Z';
    struct want want = {names_error, column, lines, "", 0};
    expect(is_wanted(input, len, &want), "pieces", which);
}

/* (a column's lines take the place of the mark that ends it, so they are asked from the last column on) */
static void of_bytes(const char *crates, char *pieces, int has_options) {
    struct rows rows = open_rows(crates, "conformance/data/bytes.txt");
    while (next_row(&rows)) {
        size_t len;
        char **column = rows.column;
        uint8_t *input = bytes_of(column[0], &len);
        if (has_options) {
            asks(pieces, "--ends", column[3]);
            expect_lines(input, len, column[4], column[0]);
            asks(pieces, "--merge", NULL);
            expect_lines(input, len, column[2], column[0]);
        }
        asks(pieces, NULL, NULL);
        expect_lines(input, len, column[1], column[0]);
        free(input);
    }
}

static void of_recode(const char *crates, char *recode) {
    struct rows rows = open_rows(crates, "conformance/data/recode.txt");
    while (next_row(&rows)) {
        size_t len, made_len;
        char *from = rows.column[0], *to = strchr(from, ' ') + 1;
        uint8_t *input = bytes_of(rows.column[1], &len), *made = bytes_of(rows.column[2], &made_len);
        to[-1] = 0;
        asks(recode, from, to);
        struct want want = {0, made, made_len, "", 0};
        expect(is_wanted(input, len, &want), "recode", rows.column[1]);
        free(input);
        free(made);
    }
}

/* A whole run: `WORDS|INPUT|STATUS|OUTPUT|SAID`, each word with `,` after it, the first being the program. */
static void whole_run(char **column, char *pieces, char *recode, const char *fault) {
    size_t len;
    char *word = column[0], *end;
    int recodes = strncmp(word, "recode,", 7) == 0, count = start_words(recodes ? recode : pieces);
    uint8_t *input = bytes_of(column[1], &len), *made = NULL;
    struct want want = {atoi(column[2]), column[3], 0, column[4], strncmp(fault, "unwritten", 9) == 0};
    for (word = strchr(word, ',') + 1; (end = strchr(word, ',')); word = end + 1) {
        *end = 0;
        words[count++] = word;
    }
    words[count] = NULL;
    if (recodes) {
        want.output = made = bytes_of(column[3], &want.len);
    } else {
        want.len = lines_of(column[3]);
    }
    expect(is_wanted(input, len, &want), fault, column[1]);
    free(input);
    free(made);
}

static void of_runs(const char *crates, const char *name, char *pieces, char *recode, char *fault) {
    struct rows rows = open_rows(crates, name);
    if (fault) setenv("FAULT", fault, 1);
    while (next_row(&rows)) whole_run(rows.column, pieces, recode, fault ? fault : "a whole run");
    unsetenv("FAULT");
}

/* Refuses each request for memory in turn. The run then ends with 3, says so, and what it wrote is a part from the front; or it
 * could do without, and all is as with ample memory, as it is once no allocation fails. */
static void refuse_each(char *program, char *word, char *other, const char *said) {
    enum { INPUT = 5000, MOST = 60 };
    static char input[INPUT], fault[40];
    size_t whole_len, len;
    int refused = 0, is_whole = 0;
    memset(input, 'a', INPUT);
    asks(program, word, other);
    set_file(in_file, input, INPUT);
    set_file(out_file, "", 0);
    int status = run_to(out_file, 0);
    char *whole = contents(out_file, &whole_len);
    expect(status == 0 && whole_len >= 6, "ample memory", program);
    for (int request = 1; request <= MOST; request++) {
        snprintf(fault, sizeof fault, "memory %d", request);
        setenv("FAULT", fault, 1);
        set_file(in_file, input, INPUT);
        set_file(out_file, "", 0);
        set_file(said_file, "", 0);
        status = run_to(out_file, 0);
        char *made = contents(out_file, &len);
        is_whole = status == 0 && len == whole_len && memcmp(made, whole, len) == 0 && says("");
        int is_refused = status == 3 && len < whole_len && memcmp(made, whole, len) == 0 && says(said);
        expect(is_whole || is_refused, "no memory", fault);
        refused += is_refused;
        free(made);
    }
    expect(refused > 1 && is_whole, "each request for memory refused in turn", program);
    unsetenv("FAULT");
    free(whole);
}

static void cannot_write(int out, char *said, const char *what) {
    set_file(in_file, "text", 4);
    set_file(said_file, "", 0);
    expect(run_to(out, 0) == 3 && says(said), what, words[0]);
}

/* A pipe whose reader has gone, and a full device. The program ends by itself, and by no signal. */
static void broken_outputs(char *pieces, char *recode) {
    int ends[2], full = open("/dev/full", O_WRONLY);
    if (pipe(ends) < 0) stop("no pipe", "for a run");
    close(ends[0]);
    asks(pieces, NULL, NULL);
    cannot_write(ends[1], "pieces: cannot write", "a closed pipe");
    if (full >= 0) cannot_write(full, "pieces: cannot write", "a full device");
    asks(recode, "utf8", "utf16le");
    cannot_write(ends[1], "recode: cannot write", "a closed pipe");
    if (full >= 0) cannot_write(full, "recode: cannot write", "a full device");
    close(ends[1]);
    if (full >= 0) close(full);
}

/* No words, not even a name (which some systems then add); 10,000 of them; and one of 100 kB. */
static void arguments(char *pieces, char *recode) {
    enum { LONG = 100000 };
    static char long_word[LONG + 1], lines[5 * LONG + 20];
    struct want wrong = {2, "", 0, "pieces: wrong arguments", 0}, none = {0, lines, 0, "", 0};
    int count = start_words(pieces);
    while (count < 10000) words[count++] = "--merge";
    words[count] = NULL;
    expect(is_wanted("A", 1, &wrong), "10,000 arguments", pieces);
    memset(long_word, 'F', LONG);
    none.len = (size_t)sprintf(lines, "0 1 000041\n");
    for (int i = 1; i < LONG; i++) none.len += (size_t)sprintf(lines + none.len, "none\n");
    asks(pieces, "--ends", long_word);
    expect(is_wanted("A", 1, &none), "a word of 100 kB", pieces);
    asks(pieces, long_word, NULL);
    expect(is_wanted("A", 1, &wrong), "a wrong argument of 100 kB", pieces);
    wrong.said = "recode: wrong arguments";
    asks(recode, "utf8", long_word);
    expect(is_wanted("A", 1, &wrong), "a wrong argument of 100 kB", recode);
    if (getenv("RUN") && *getenv("RUN")) return; /* (that one would get no words either) */
    asks(pieces, NULL, NULL);
    set_file(in_file, "A", 1);
    set_file(out_file, "", 0);
    set_file(said_file, "", 0);
    expect(run_to(out_file, 1) == 0 && says(""), "no arguments", pieces);
    asks(recode, NULL, NULL);
    expect(run_to(out_file, 1) == 2 && says("recode: wrong arguments"), "no arguments", recode);
}

int main(int argc, char **argv) {
    static char *faults[] = {"short 1", "short 3", "unread 2", "unread 3", "unwritten 2", "unwritten 3"};
    if (argc != 8) stop("usage", "runs CRATES PIECES RECODE FAULTY_PIECES FAULTY_RECODE EXAMPLE_PIECES EXAMPLE_RECODE");
    signal(SIGPIPE, SIG_DFL);
    in_file = temporary();
    out_file = temporary();
    said_file = temporary();
    of_runs(argv[1], "run_vectors/data/runs.txt", argv[2], argv[3], NULL);
    of_runs(argv[1], "run_vectors/data/long_runs.txt", argv[2], argv[3], NULL);
    of_bytes(argv[1], argv[2], 1);
    of_bytes(argv[1], argv[6], 0);
    of_recode(argv[1], argv[3]);
    of_recode(argv[1], argv[7]);
    for (size_t i = 0; i < sizeof faults / sizeof *faults; i++) of_runs(argv[1], "run_vectors/data/runs.txt", argv[4], argv[5], faults[i]);
    refuse_each(argv[4], NULL, NULL, "pieces: no memory");
    refuse_each(argv[4], "--merge", NULL, "pieces: no memory");
    refuse_each(argv[4], "--ends", "FBFBFBFBFBFB", "pieces: no memory");
    refuse_each(argv[5], "utf8", "utf16be", "recode: no memory");
    broken_outputs(argv[2], argv[3]);
    arguments(argv[2], argv[3]);
    return tell();
}
