/* What nody asks of Windows: the calls of POSIX in system.h, the console, and files that get their names once they are written. */
#include "nody.h"

#ifdef _WIN32

#include <io.h>
#include <stdlib.h>
#include <string.h>
#include <windows.h>
#include <shlwapi.h>

/* The units of a name, at most, of one that is not marked as long, and of what is added. */
enum { NAME_ROOM = 1 << 15, SHORT_NAME = 240, MOST_ADDED = 2 };

/* Sets `errno` by the last error of Windows, and returns -1. */
static int fails(void) {
    switch (GetLastError()) {
    case ERROR_FILE_NOT_FOUND: case ERROR_PATH_NOT_FOUND: case ERROR_INVALID_NAME: case ERROR_BAD_PATHNAME: case ERROR_INVALID_DRIVE:
    case ERROR_BAD_NETPATH: case ERROR_BAD_NET_NAME: errno = ENOENT; break;
    case ERROR_ACCESS_DENIED: case ERROR_SHARING_VIOLATION: case ERROR_LOCK_VIOLATION: case ERROR_WRITE_PROTECT: errno = EACCES; break;
    case ERROR_FILE_EXISTS: case ERROR_ALREADY_EXISTS: errno = EEXIST; break;
    case ERROR_DISK_FULL: case ERROR_HANDLE_DISK_FULL: errno = ENOSPC; break;
    case ERROR_BROKEN_PIPE: case ERROR_NO_DATA: case ERROR_PIPE_NOT_CONNECTED: errno = EPIPE; break;
    case ERROR_NO_UNICODE_TRANSLATION: errno = EILSEQ; break;
    case ERROR_FILENAME_EXCED_RANGE: errno = ENAMETOOLONG; break;
    default: errno = EIO;
    }
    return -1;
}

/* A name in UTF-8; NULL if there is no memory or, if the flags say so, if it has a lone surrogate, which otherwise becomes U+FFFD. */
static char *narrow(const wchar_t *wide, DWORD flags) {
    int room = WideCharToMultiByte(CP_UTF8, flags, wide, -1, NULL, 0, NULL, NULL);
    char *name = room ? malloc((size_t)room) : NULL;
    if (name) WideCharToMultiByte(CP_UTF8, flags, wide, -1, name, room, NULL, NULL);
    return name;
}

/* Puts a name as Windows takes it: the whole path, marked if it is long. Returns false if that fails. */
static bool widen(wchar_t *path, const char *name) {
    static const wchar_t mark[] = L"\\\\?\\";
    enum { MARK = sizeof mark / sizeof *mark - 1 };
    wchar_t wide[NAME_ROOM];
    if (!MultiByteToWideChar(CP_UTF8, MB_ERR_INVALID_CHARS, name, -1, wide, NAME_ROOM)) return false;
    SetLastError(ERROR_INVALID_NAME);
    DWORD len = GetFullPathNameW(wide, NAME_ROOM, path, NULL);
    if (len == 0 || len >= NAME_ROOM - MARK - MOST_ADDED) return false;
    if (len < SHORT_NAME || path[0] == '\\') return true;
    memmove(path + MARK, path, (len + 1) * sizeof *path);
    memcpy(path, mark, MARK * sizeof *path);
    return true;
}

/* (a GLOB has * and ?, and the case of letters says nothing, as in names) */
int fnmatch(const char *glob, const char *name, int flags) {
    wchar_t wide[NAME_ROOM], path[NAME_ROOM];
    bool is_read = MultiByteToWideChar(CP_UTF8, 0, glob, -1, wide, NAME_ROOM) && MultiByteToWideChar(CP_UTF8, 0, name, -1, path, NAME_ROOM);
    return is_read && PathMatchSpecW(path, wide) ? flags : FNM_NOMATCH;
}

/* ---- Files */

static HANDLE handle_of(int file) {
    return (HANDLE)_get_osfhandle(file);
}

/* Opens what has a name. Other processes may do all with it meanwhile, as on POSIX. */
static int open_for(const char *name, DWORD access, DWORD flags) {
    wchar_t path[NAME_ROOM];
    DWORD share = FILE_SHARE_READ | FILE_SHARE_WRITE | FILE_SHARE_DELETE;
    HANDLE handle = widen(path, name) ? CreateFileW(path, access, share, NULL, OPEN_EXISTING, flags, NULL) : INVALID_HANDLE_VALUE;
    return handle == INVALID_HANDLE_VALUE ? fails() : _open_osfhandle((intptr_t)handle, 0);
}

/* The kind of a file; 0 for a link. (what is stored in another way, as files in a cloud are, is no link) */
static unsigned mode_of(HANDLE handle, DWORD attributes) {
    FILE_ATTRIBUTE_TAG_INFO tag;
    bool can_be_link = attributes & FILE_ATTRIBUTE_REPARSE_POINT && GetFileInformationByHandleEx(handle, FileAttributeTagInfo, &tag, sizeof tag);
    if (can_be_link && IsReparseTagNameSurrogate(tag.ReparseTag)) return 0;
    return attributes & FILE_ATTRIBUTE_DIRECTORY ? S_IFDIR : S_IFREG;
}

int fstat(int file, struct stat *about) {
    BY_HANDLE_FILE_INFORMATION info;
    HANDLE handle = handle_of(file);
    DWORD type = GetFileType(handle);
    memset(about, 0, sizeof *about);
    about->st_mode = type == FILE_TYPE_CHAR ? S_IFCHR : S_IFIFO;
    /* (a file that says nothing of itself, as standard input under wine, is read as a pipe is) */
    if (type != FILE_TYPE_DISK || !GetFileInformationByHandle(handle, &info)) return 0;
    about->st_mode = mode_of(handle, info.dwFileAttributes);
    about->st_dev = info.dwVolumeSerialNumber;
    about->st_ino = (uint64_t)info.nFileIndexHigh << 32 | info.nFileIndexLow;
    about->st_size = (off_t)((uint64_t)info.nFileSizeHigh << 32 | info.nFileSizeLow);
    about->st_mtim.tv_sec = info.ftLastWriteTime.dwHighDateTime;
    about->st_mtim.tv_nsec = (long)info.ftLastWriteTime.dwLowDateTime;
    return 0;
}

static int describe(const char *name, DWORD flags, struct stat *about) {
    int file = open_for(name, FILE_READ_ATTRIBUTES, FILE_FLAG_BACKUP_SEMANTICS | flags), status = file < 0 ? -1 : fstat(file, about);
    if (file >= 0) close(file);
    return status;
}

int stat(const char *name, struct stat *about) {
    return describe(name, 0, about);
}

int lstat(const char *name, struct stat *about) {
    return describe(name, FILE_FLAG_OPEN_REPARSE_POINT, about);
}

int open(const char *name, int flags) {
    struct stat about;
    int file = open_for(name, flags & O_WRONLY ? GENERIC_WRITE : GENERIC_READ, 0);
    if (file < 0 && errno == EACCES) errno = stat(name, &about) == 0 && S_ISDIR(about.st_mode) ? EISDIR : EACCES;
    return file;
}

/* (the read moves the position of the file, which is put back: threads that read at the same time use none) */
ssize_t pread(int file, void *bytes, size_t room, off_t at) {
    OVERLAPPED from = {.Offset = (DWORD)at, .OffsetHigh = (DWORD)(at >> 32)};
    DWORD count = 0;
    off_t had = lseek(file, 0, SEEK_CUR);
    bool is_read = ReadFile(handle_of(file), bytes, (DWORD)room, &count, &from) || GetLastError() == ERROR_HANDLE_EOF;
    if (!is_read) fails();
    lseek(file, had, SEEK_SET);
    return is_read ? (ssize_t)count : -1;
}

ssize_t write(int file, const void *bytes, size_t len) {
    DWORD count;
    return WriteFile(handle_of(file), bytes, (DWORD)len, &count, NULL) ? (ssize_t)count : fails();
}

ssize_t getdelim(char **line, size_t *room, int end, FILE *file) {
    size_t len = 0;
    for (int byte = !end; byte != end && (byte = getc(file)) != EOF; (*line)[len] = 0) {
        char *grown = len + 2 > *room ? realloc(*line, *room = 2 * len + 128) : *line;
        if (!grown) return -1;
        *line = grown;
        grown[len++] = (char)byte;
    }
    return len ? (ssize_t)len : -1;
}

int link(const char *name, const char *other) {
    wchar_t old[NAME_ROOM], new[NAME_ROOM];
    return widen(old, name) && widen(new, other) && CreateHardLinkW(new, old, NULL) ? 0 : fails();
}

int unlink(const char *name) {
    wchar_t path[NAME_ROOM];
    return widen(path, name) && DeleteFileW(path) ? 0 : fails();
}

/* (other processes can then neither read nor write the file) */
int flock(int file, int how) {
    OVERLAPPED from = {0};
    bool is_locked = LockFileEx(handle_of(file), (DWORD)how, 0, MAXDWORD, MAXDWORD, &from);
    errno = is_locked || (GetLastError() != ERROR_LOCK_VIOLATION && GetLastError() != ERROR_IO_PENDING) ? 0 : EWOULDBLOCK;
    return is_locked ? 0 : -1;
}

/* (a name that is not Unicode is left out, and the whole then fails) */
bool read_folder(const char *folder, bool is_link_followed, take_name *take, void *to) {
    WIN32_FIND_DATAW found;
    wchar_t path[NAME_ROOM];
    struct stat about;
    bool is_whole = lstat(folder, &about) == 0 && (is_link_followed || S_ISDIR(about.st_mode)) && widen(path, folder);
    HANDLE search = is_whole ? FindFirstFileW(wcscat(path, L"\\*"), &found) : INVALID_HANDLE_VALUE;
    if (search == INVALID_HANDLE_VALUE) return is_whole && fails() == 0;
    do {
        char *name = narrow(found.cFileName, WC_ERR_INVALID_CHARS);
        if (!name || (strcmp(name, ".") != 0 && strcmp(name, "..") != 0)) is_whole &= name && take(to, name);
        free(name);
    } while (FindNextFileW(search, &found));
    errno = EILSEQ;
    if (GetLastError() != ERROR_NO_MORE_FILES) is_whole = fails() == 0;
    FindClose(search);
    return is_whole;
}

/* ---- The console */

size_t width_of_terminal(int file) {
    CONSOLE_SCREEN_BUFFER_INFO info;
    return GetConsoleScreenBufferInfo(handle_of(file), &info) ? (size_t)(info.srWindow.Right - info.srWindow.Left + 1) : 0;
}

/* (the wide characters are those of East Asia, and pictures; Windows knows which marks have no width) */
int wcwidth(int scalar) {
    static const int wide[][2] = {{0x1100, 0x115F}, {0x2E80, 0x303E}, {0x3041, 0xA4CF}, {0xA960, 0xA97F}, {0xAC00, 0xD7A3}, {0xF900, 0xFAFF},
                                  {0xFE30, 0xFE6F}, {0xFF00, 0xFF60}, {0xFFE0, 0xFFE6}, {0x17000, 0x18CFF}, {0x1B000, 0x1B2FF}, {0x1F300, 0x1F64F},
                                  {0x1F680, 0x1F6FF}, {0x1F900, 0x1FAFF}, {0x20000, 0x3FFFD}};
    wchar_t unit = (wchar_t)scalar;
    WORD kinds = 0;
    for (size_t i = 0; i < sizeof wide / sizeof *wide; i++)
        if (scalar >= wide[i][0] && scalar <= wide[i][1]) return 2;
    if (scalar <= 0xFFFF) GetStringTypeW(CT_CTYPE3, &unit, 1, &kinds);
    return kinds & C3_NONSPACING && !(kinds & C3_ALPHA) ? 0 : 1;
}

/* The code page that the console had. */
static UINT code_page;

static void restore_console(void) {
    SetConsoleOutputCP(code_page);
}

/* Lets a console show UTF-8, and colours if it can. */
static void set_console(int file) {
    DWORD mode;
    if (!GetConsoleMode(handle_of(file), &mode)) return;
    bool is_able = SetConsoleMode(handle_of(file), mode | ENABLE_VIRTUAL_TERMINAL_PROCESSING);
    if (!is_able || !getenv("TERM")) _putenv(is_able ? "TERM=xterm" : "TERM=dumb");
    if (code_page) return;
    code_page = GetConsoleOutputCP();
    SetConsoleOutputCP(CP_UTF8);
    atexit(restore_console);
}

void start_system(void) {
    _fmode = _O_BINARY;
    for (int file = 0; file < 3; file++)
        if (_setmode(file, _O_BINARY) < 0 && _wopen(L"nul", file == 0 ? _O_WRONLY : _O_RDONLY) != file) exit(HAS_FAILED);
    set_console(STDOUT_FILENO);
    set_console(STDERR_FILENO);
}

/* ---- Files that are replaced */

int descriptor_of(const char *name) {
    return strcmp(name, "-") == 0 ? STDOUT_FILENO : -1;
}

/* Says whether a file goes when it is closed, however the program ends. */
static bool set_temporary(int file, bool is_temporary) {
    FILE_DISPOSITION_INFO info = {is_temporary};
    return SetFileInformationByHandle(handle_of(file), FileDispositionInfo, &info, sizeof info);
}

/* Makes a file in the folder of the name, with the rights of the file that has the name. One that is only to be read is not replaced. */
bool make_temporary(struct replacement *it, const struct stat *about) {
    enum { MOST_RIGHTS = 1 << 16, HIDING = FILE_ATTRIBUTE_HIDDEN | FILE_ATTRIBUTE_SYSTEM };
    wchar_t path[NAME_ROOM];
    uint64_t rights[MOST_RIGHTS / sizeof(uint64_t)];
    SECURITY_ATTRIBUTES security = {sizeof security, rights, FALSE};
    DWORD len, number = GetCurrentProcessId();
    DWORD attributes = about && widen(path, it->name) ? GetFileAttributesW(path) : 0;
    bool has_rights = about && GetFileSecurityW(path, DACL_SECURITY_INFORMATION, rights, sizeof rights, &len);
    size_t folder = strlen(it->name);
    errno = EACCES;
    if (attributes & FILE_ATTRIBUTE_READONLY) return false;
    while (folder > 0 && !strchr(SEPARATORS ":", it->name[folder - 1])) folder--;
    it->temporary = malloc(folder + sizeof ".nody-4294967295");
    HANDLE handle = INVALID_HANDLE_VALUE;
    for (DWORD error = ERROR_FILE_EXISTS; it->temporary && error == ERROR_FILE_EXISTS; error = GetLastError()) {
        sprintf(it->temporary, "%.*s.nody-%lu", (int)folder, it->name, number++);
        if (!widen(path, it->temporary)) break;
        handle = CreateFileW(path, GENERIC_WRITE | DELETE, FILE_SHARE_DELETE, has_rights ? &security : NULL, CREATE_NEW, attributes & HIDING, NULL);
        if (handle != INVALID_HANDLE_VALUE) break;
    }
    it->file = handle == INVALID_HANDLE_VALUE ? fails() : _open_osfhandle((intptr_t)handle, O_WRONLY);
    return it->file >= 0 && (set_temporary(it->file, true) || fails() == 0);
}

/* (the file stays open, and is temporary, until it gets its name) */
bool flush_replacement(struct replacement *it) {
    return it->is_direct || FlushFileBuffers(handle_of(it->file)) || fails() == 0;
}

/* (a file that is open here could not be replaced) */
bool keep_replacement(struct replacement *it, struct source *replaced) {
    wchar_t from[NAME_ROOM], to[NAME_ROOM];
    if (it->is_direct) return true;
    close_source(replaced);
    replaced->file = -1;
    bool is_kept = widen(from, it->temporary) && widen(to, it->name) && set_temporary(it->file, false) &&
                   MoveFileExW(from, to, MOVEFILE_REPLACE_EXISTING | MOVEFILE_WRITE_THROUGH);
    if (!is_kept) set_temporary(it->file, fails() < 0);
    return is_kept;
}

void drop_replacement(struct replacement *it) {
    int error = errno;
    if (it->file >= 0) close(it->file);
    free(it->temporary);
    free(it->name);
    errno = error;
}

int main(int argc, char **argv);
int wmain(int argc, wchar_t **wide) {
    char **argv = calloc((size_t)argc + 1, sizeof *argv);
    for (int i = 0; argv && i < argc; i++)
        if (!(argv[i] = narrow(wide[i], 0))) return HAS_FAILED;
    return argv ? main(argc, argv) : HAS_FAILED;
}

#endif
