/* The names of the inputs: from the command line, from a list, and in folders. */
#include "nody.h"

#include <stdlib.h>
#include <string.h>

/* Returns true if a path begins with "." or "..", which are no names of folders. */
static bool is_dotted(const char *path) {
    size_t len = strcspn(path, SEPARATORS);
    return len > 0 && len <= 2 && strncmp(path, "..", len) == 0;
}

/* Returns true if a GLOB fits the name, or what follows a slash in it. (.* fits hidden names, and not ./text or ../text: those need a GLOB that
 * begins as they do) */
static bool is_excluded(const struct request *request, const char *name) {
    for (size_t i = 0; i < request->excluded_count; i++)
        for (const char *tail = name, *end; tail; tail = (end = strpbrk(tail, SEPARATORS)) ? end + 1 : NULL)
            if (is_dotted(tail) <= is_dotted(request->excluded[i]) && fnmatch(request->excluded[i], tail, 0) == 0) return true;
    return false;
}

/* The names in a folder. */
struct names {
    char **all;
    size_t count, room;
};

static bool add_name(void *to, const char *name) {
    struct names *names = to;
    if (names->count == names->room) {
        size_t room = 2 * names->room + 16;
        char **all = realloc(names->all, room * sizeof *all);
        if (!all) return false;
        names->all = all;
        names->room = room;
    }
    names->all[names->count] = strdup(name);
    return names->all[names->count++] != NULL;
}

static int order_of_names(const void *a, const void *b) {
    return strcmp(*(char *const *)a, *(char *const *)b);
}

/* Reads the names in a folder, in order; returns false and sets `errno` if that fails. The folder is closed before another one is opened,
 * so that depth takes no descriptors. */
static bool read_names(const char *folder, enum found_how how, struct names *names) {
    bool is_whole = read_folder(folder, how == IS_NAMED, add_name, names);
    int error = errno;
    if (names->count) qsort(names->all, names->count, sizeof *names->all, order_of_names);
    errno = error;
    return is_whole;
}

static char *path_of(const char *folder, const char *name) {
    size_t len = strlen(folder);
    char *path = malloc(len + strlen(name) + 2);
    if (path) sprintf(path, len > 0 && strchr(SEPARATORS, folder[len - 1]) ? "%s%s" : "%s/%s", folder, name);
    return path;
}

static void visit_folder(struct inputs *inputs, const char *folder, enum found_how how);

/* Visits a regular file that was found in a folder, or goes into another folder. Links, pipes, devices and sockets are passed over. */
static void visit_found(struct inputs *inputs, const char *path) {
    struct stat about;
    if (is_excluded(inputs->request, path)) return;
    if (lstat(path, &about) != 0) {
        if (errno != ENOENT) inputs->fail(inputs, path, strerror(errno));
    } else if (S_ISDIR(about.st_mode)) {
        visit_folder(inputs, path, IS_FOUND);
    } else if (S_ISREG(about.st_mode)) {
        inputs->visit(inputs, path, IS_FOUND);
    }
}

static void visit_folder(struct inputs *inputs, const char *folder, enum found_how how) {
    struct names names = {NULL, 0, 0};
    if (!read_names(folder, how, &names)) inputs->fail(inputs, folder, strerror(errno));
    for (size_t i = 0; i < names.count; i++) {
        char *path = inputs->has_ended(inputs) ? NULL : path_of(folder, names.all[i]);
        if (path) visit_found(inputs, path);
        free(path);
        free(names.all[i]);
    }
    free(names.all);
}

static void visit_named(struct inputs *inputs, const char *name) {
    struct stat about;
    bool is_input = strcmp(name, "-") == 0;
    if (!is_input && is_excluded(inputs->request, name)) return;
    if (inputs->request->is_recursive && !is_input && stat(name, &about) == 0 && S_ISDIR(about.st_mode)) {
        visit_folder(inputs, name, IS_NAMED);
        inputs->end_folder(inputs, name);
    } else {
        inputs->visit(inputs, name, IS_NAMED);
    }
}

/* Visits the files that a list names, each name ended by a NUL. */
static void visit_list(struct inputs *inputs, const char *list) {
    bool is_input = strcmp(list, "-") == 0;
    int descriptor = is_input ? STDIN_FILENO : open(list, O_RDONLY | O_CLOEXEC);
    FILE *file = descriptor < 0 ? NULL : fdopen(descriptor, "r");
    char *name = NULL;
    size_t room = 0;
    if (!file) {
        inputs->fail(inputs, list, strerror(errno));
        return;
    }
    errno = 0;
    while (!inputs->has_ended(inputs) && getdelim(&name, &room, 0, file) > 0) {
        if (!*name) inputs->fail(inputs, list, "a name in this list is empty");
        else if (is_input && strcmp(name, "-") == 0) inputs->fail(inputs, name, "standard input has the list, and is no file of it");
        else visit_named(inputs, name);
        errno = 0;
    }
    if (ferror(file)) inputs->fail(inputs, list, strerror(errno ? errno : EIO));
    free(name);
    if (!is_input) fclose(file);
}

/* Visits all inputs. If none is named, it is standard input, or with --recursive this folder. */
void visit_inputs(struct inputs *inputs, int count, char **names) {
    if (inputs->request->names_from) visit_list(inputs, inputs->request->names_from);
    else if (count == 0) visit_named(inputs, inputs->request->is_recursive ? "." : "-");
    for (int i = 0; i < count && !inputs->has_ended(inputs); i++) visit_named(inputs, names[i]);
}
