/* Writes a file anew: another one, or the input itself, which is locked, checked once more, and replaced atomically. */
#include "nody.h"

#include <stdlib.h>
#include <string.h>

static const char changed[] = "it changed while it was read, and stays as it is";

enum status refuses(const char *name, const char *why) {
    hide_progress();
    complain(name, why);
    return HAS_FAILED;
}

static enum status fails(const char *name) {
    return refuses(name, strerror(errno));
}

/* Returns true if the input itself is replaced: in place, or by -o with its name, or with another name of it. */
static bool is_onto_itself(const struct run *run, const char *into) {
    struct stat about;
    if (!S_ISREG(run->source.about.st_mode)) return false;
    return strcmp(into, run->source.name) == 0 || (stat(into, &about) == 0 && is_source(&run->source, &about));
}

/* Opens what will have the name. If that is a link, what it leads to is replaced, and no link: one that leads nowhere fails. In place a
 * file is replaced that may not be written, if its folder may. */
static bool open_replacement(struct replacement *it, const char *name, bool is_in_place) {
    struct stat about, link;
    bool is_there = stat(name, &about) == 0, is_link = lstat(name, &link) == 0 && S_ISLNK(link.st_mode);
    memset(it, 0, sizeof *it);
    it->file = -1;
    it->is_direct = is_there && !S_ISREG(about.st_mode);
    if (is_there && !is_in_place && faccessat(AT_FDCWD, name, W_OK, AT_EACCESS) != 0) return false;
    it->name = is_link ? realpath(name, NULL) : strdup(name);
    if (!it->name) return false;
    if (!it->is_direct) return make_temporary(it, is_there ? &about : NULL);
    it->file = open(name, O_WRONLY | O_CLOEXEC);
    return it->file >= 0;
}

/* Gives the old file another name, which must be free, and then the new file its name. */
static enum status keep_both(struct run *run, struct replacement *new, const char *into) {
    char *old = malloc(strlen(new->name) + strlen(run->request->backup) + 1);
    if (!old) return fails(into);
    strcpy(old, new->name);
    strcat(old, run->request->backup);
    bool is_linked = link(new->name, old) == 0;
    enum status status = is_linked ? IS_VALID : fails(old);
    if (is_linked && !(is_source_linked(&run->source) && is_source_unchanged(&run->source, new->name))) status = refuses(into, changed);
    if (status == IS_VALID && !keep_replacement(new, &run->source)) status = fails(into);
    if (status != IS_VALID && is_linked) unlink(old);
    free(old);
    return status;
}

/* Gives the new file its name, once all of it is on the disk. Whether another process changed the old file meanwhile is the last thing that
 * is looked at, since all else takes time. A file that would get the contents that it has is left alone. */
static enum status keep(struct run *run, struct replacement *new, const char *into, bool is_itself) {
    bool is_left = is_itself && run->is_same;
    if (!is_left && !flush_replacement(new)) return fails(into);
    if (is_itself && !is_source_unchanged(&run->source, new->name)) return refuses(into, changed);
    if (is_left) return IS_VALID;
    return run->request->backup ? keep_both(run, new, into) : keep_replacement(new, &run->source) ? IS_VALID : fails(into);
}

/* Writes the output of a command into a file, which is replaced only when all was written. */
enum status write_into(struct run *run, const char *into, rewrite *write) {
    struct replacement new;
    struct output out;
    bool is_itself = run->is_same = is_onto_itself(run, into);
    if (is_itself && !lock_source(&run->source)) return refuses(into, "another process has locked it");
    if (!open_replacement(&new, into, run->request->is_in_place || run->request->bit == FIX)) {
        enum status failure = fails(into);
        drop_replacement(&new);
        return failure;
    }
    enum status status = open_output(&out, new.file) ? write(run, &out) : fails(into);
    if (out.error) {
        errno = out.error;
        status = errno == EPIPE ? HAS_FAILED : fails(into);
    }
    if (status == IS_VALID) status = keep(run, &new, into, is_itself);
    close_output(&out);
    drop_replacement(&new);
    return status;
}
