/* nody: checks, lists, counts and converts text in UTF-8 and UTF-16, whatever is wrong with it. The man page has the words. */
#include "nody.h"

#include <getopt.h>
#include <stdlib.h>
#include <string.h>

static struct output out;

/* Says on standard error what is wrong with something, after what was written before. */
void complain(const char *name, const char *why) {
    hide_progress();
    flush_output(&out);
    put_text(&err, "nody: ");
    put_name(&err, name);
    put_text(&err, ": ");
    put_text(&err, why);
    put_byte(&err, '\n');
    flush_output(&err);
}

/* Reports what kept a run from its end. A closed pipe is not reported: nobody reads there. */
enum status tell_failure(struct run *run) {
    const struct source *source = &run->source;
    hide_progress();
    if (run->out->error) return HAS_FAILED;
    if (run->out->is_shown) flush_output(run->out);
    if (source->error) complain(source->name, strerror(source->error));
    else if (run->has_no_memory) complain(source->name, "there is no memory");
    else if (source->is_shorter && source->is_followed) complain(source->name, "it became shorter, and is read from its front again");
    else if (source->is_shorter) complain(source->name, "it became shorter while it was read");
    return source->error || run->has_no_memory || (source->is_shorter && !source->is_followed) ? HAS_FAILED : IS_VALID;
}

/* Returns true if a command writes, as it reads an input, to that same file: then the input might never end. */
static bool is_output(const struct request *request, const struct stat *input) {
    struct stat about;
    bool is_apart = request->into || request->is_in_place || !(request->bit & (CHECK | LIST | RECODE));
    if (is_apart || !S_ISREG(input->st_mode) || input->st_size == 0) return false;
    return fstat(out.file, &about) == 0 && about.st_dev == input->st_dev && about.st_ino == input->st_ino;
}

static void fail_input(struct inputs *inputs, const char *name, const char *why) {
    complain(name, why);
    inputs->status = HAS_FAILED;
}

/* Says how many binary files of a folder are not valid. */
static void end_folder(struct inputs *inputs, const char *name) {
    if (inputs->binaries == 0) return;
    put_name(&out, name);
    put_text(&out, ": ");
    put_grouped(&out, inputs->binaries);
    put_text(&out, inputs->binaries == 1 ? " binary file is not valid " : " binary files are not valid ");
    put_text(&out, name_of_encoding(inputs->request->from));
    put_text(&out, inputs->binaries == 1 ? " (-v names it)\n" : " (-v names them)\n");
    inputs->binaries = 0;
}

/* What was found in a folder and is no regular file any more, or not there, is passed over. */
static bool is_passed_over(const struct source *source, enum found_how how) {
    if (how == IS_NAMED) return false;
    return source->error ? source->error == ENOENT || source->error == ELOOP || source->error == ENXIO : !S_ISREG(source->about.st_mode);
}

static const struct command_spec *command;

/* Runs the command on one input. */
static void visit_input(struct inputs *inputs, const char *name, enum found_how how) {
    enum status here = IS_VALID;
    struct run run;
    memset(&run, 0, sizeof run);
    run.request = inputs->request;
    run.out = &out;
    run.how = how;
    bool is_open = open_source(&run.source, name, run.request, how);
    if (is_passed_over(&run.source, how)) {
        here = IS_VALID;
    } else if (!is_open) {
        fail_input(inputs, name, strerror(run.source.error));
    } else if (is_output(run.request, &run.source.about)) {
        complain(name, "it is the output too");
        here = HAS_FAILED;
    } else {
        start_progress(run.request->is_quiet);
        here = command->run(&run);
        inputs->binaries += is_only_counted(&run);
    }
    close_source(&run.source);
    if (here > inputs->status) inputs->status = here;
}

static bool has_ended(const struct inputs *inputs) {
    (void)inputs;
    return out.error != 0;
}

/* Ends with what was written: a closed pipe ends the program without a word. */
static enum status end_output(enum status status) {
    if (flush_output(&out)) return status;
    if (out.error != EPIPE) complain("cannot write", strerror(out.error));
    return HAS_FAILED;
}

static enum status run_all(struct request *request, int count, char **files) {
    static char *input[] = {"-"};
    struct inputs inputs = {request, visit_input, fail_input, end_folder, has_ended, IS_VALID, 0};
    if (request->bit == AT) request->where = files[--count];
    if (!IS_WINDOWS && request->is_followed) inputs.status = run_followed(request, &out, count ? count : 1, count ? files : input);
    else visit_inputs(&inputs, count, files);
    return end_output(inputs.status);
}

static int show_alone(const char *word) {
    if (strcmp(word, "--version") == 0) show_version();
    else show_help();
    return fflush(stdout) == 0 ? IS_VALID : HAS_FAILED;
}

static enum status run_request(struct request *request, int count, char **files) {
    if (!open_output(&out, request->file < 0 ? STDOUT_FILENO : request->file)) {
        fputs("nody: there is no memory\n", stderr);
        return HAS_FAILED;
    }
    if (request->bit & (LIST | AT)) request->jobs = 1;
    set_context(request, &out);
    enum status status = run_all(request, count, files);
    close_output(&out);
    return status;
}

static enum status run_command(int argc, char **argv) {
    struct request request;
    memset(&request, 0, sizeof request);
    request.file = -1;
    bool is_right = takes_words(&request, command, argc, argv);
    enum status status = is_right ? run_request(&request, argc - optind, argv + optind) : IS_WRONG;
    free(request.excluded);
    return status;
}

int main(int argc, char **argv) {
    const char *word = argc > 1 ? argv[1] : "";
    start_system();
    set_widths();
    if (!nody_supported() || !open_output(&err, STDERR_FILENO)) {
        fputs(nody_supported() ? "nody: there is no memory\n" : "nody: this processor lacks x86-64-v2\n", stderr);
        return HAS_FAILED;
    }
    err.is_shown = false; /* (who writes there takes the bar away first) */
    if (strcmp(word, "--version") == 0 || strcmp(word, "--help") == 0 || strcmp(word, "-h") == 0) return show_alone(word);
    command = command_of(word);
    if (!command) {
        fputs("usage: nody check|fix|view|count|list|at|recode [OPTION..] [FILE..]; nody --help says more\n", stderr);
        return IS_WRONG;
    }
    enum status status = run_command(argc, argv);
    close_output(&err);
    return (int)status;
}
