/* What the programs ask of their system, for Windows, beside what memory.c has. They were built for Linux: they know
   streams by small numbers, and errors by Linux's numbers and glibc's texts. Files and consoles are called directly,
   and not through the C runtime: it would change bytes, and has one number for several errors. */
#include "../stand-in.h"
#include "sysv.h"

#include <stdbool.h>
#include <stdlib.h>
#include <wchar.h>
#include <windows.h>

enum {
    STANDARD_INPUT,
    STANDARD_OUTPUT,
    STANDARD_ERROR,
    STREAMS = 64,            /* of all that is open at once */
    MOST_AT_ONCE = 1 << 20,  /* bytes that are read or written at once */
    CONSOLE_UNITS = 4096,    /* units of UTF-16 that a console is given, or asked for, at once */
    MOST_OF_UNIT = 3,        /* bytes of UTF-8 for a unit of UTF-16 */
    MOST_OF_PATH = 32768,    /* units of UTF-16, with the NUL */
    CONTROL_Z = 26           /* at the beginning of a line it ends the input from a console */
};

/* Errors, by their numbers on Linux. */
enum {
    LINUX_ENOENT = 2,
    LINUX_EINTR = 4,
    LINUX_EIO = 5,
    LINUX_EBADF = 9,
    LINUX_EAGAIN = 11,
    LINUX_ENOMEM = 12,
    LINUX_EACCES = 13,
    LINUX_EBUSY = 16,
    LINUX_ENOTDIR = 20,
    LINUX_EISDIR = 21,
    LINUX_EINVAL = 22,
    LINUX_EMFILE = 24,
    LINUX_ENOSPC = 28,
    LINUX_EROFS = 30,
    LINUX_EPIPE = 32,
    LINUX_ERANGE = 34,
    LINUX_ENAMETOOLONG = 36,
    LINUX_ELOOP = 40,
    LINUX_ENOMEDIUM = 123
};

/* The texts that glibc has for them. */
static const struct {
    int number;
    const char *text;
} texts[] = {
    {LINUX_ENOENT, "No such file or directory"},
    {LINUX_EINTR, "Interrupted system call"},
    {LINUX_EIO, "Input/output error"},
    {LINUX_EBADF, "Bad file descriptor"},
    {LINUX_EAGAIN, "Resource temporarily unavailable"},
    {LINUX_ENOMEM, "Cannot allocate memory"},
    {LINUX_EACCES, "Permission denied"},
    {LINUX_EBUSY, "Device or resource busy"},
    {LINUX_ENOTDIR, "Not a directory"},
    {LINUX_EISDIR, "Is a directory"},
    {LINUX_EINVAL, "Invalid argument"},
    {LINUX_EMFILE, "Too many open files"},
    {LINUX_ENOSPC, "No space left on device"},
    {LINUX_EROFS, "Read-only file system"},
    {LINUX_EPIPE, "Broken pipe"},
    {LINUX_ERANGE, "Numerical result out of range"},
    {LINUX_ENAMETOOLONG, "File name too long"},
    {LINUX_ELOOP, "Too many levels of symbolic links"},
    {LINUX_ENOMEDIUM, "No medium found"},
};

/* Errors of Windows, and what Linux reports in their place. Any other is LINUX_EIO. */
static const struct {
    DWORD code;
    int number;
} errors[] = {
    {ERROR_INVALID_FUNCTION, LINUX_EISDIR}, /* a read of a folder */
    {ERROR_FILE_NOT_FOUND, LINUX_ENOENT},
    {ERROR_PATH_NOT_FOUND, LINUX_ENOENT},
    {ERROR_TOO_MANY_OPEN_FILES, LINUX_EMFILE},
    {ERROR_ACCESS_DENIED, LINUX_EACCES},
    {ERROR_INVALID_HANDLE, LINUX_EBADF},
    {ERROR_NOT_ENOUGH_MEMORY, LINUX_ENOMEM},
    {ERROR_OUTOFMEMORY, LINUX_ENOMEM},
    {ERROR_INVALID_DRIVE, LINUX_ENOENT},
    {ERROR_WRITE_PROTECT, LINUX_EROFS},
    {ERROR_NOT_READY, LINUX_ENOMEDIUM},
    {ERROR_SHARING_VIOLATION, LINUX_EBUSY},
    {ERROR_LOCK_VIOLATION, LINUX_EBUSY},
    {ERROR_HANDLE_DISK_FULL, LINUX_ENOSPC},
    {ERROR_BAD_NETPATH, LINUX_ENOENT},
    {ERROR_BAD_NET_NAME, LINUX_ENOENT},
    {ERROR_INVALID_PARAMETER, LINUX_EINVAL},
    {ERROR_BROKEN_PIPE, LINUX_EPIPE},
    {ERROR_BUFFER_OVERFLOW, LINUX_ENAMETOOLONG},
    {ERROR_DISK_FULL, LINUX_ENOSPC},
    {ERROR_INVALID_NAME, LINUX_ENOENT},
    {ERROR_BAD_PATHNAME, LINUX_ENOENT},
    {ERROR_FILENAME_EXCED_RANGE, LINUX_ENAMETOOLONG},
    {ERROR_NO_DATA, LINUX_EPIPE},
    {ERROR_PIPE_NOT_CONNECTED, LINUX_EPIPE},
    {ERROR_DIRECTORY, LINUX_ENOTDIR},
    {ERROR_OPERATION_ABORTED, LINUX_EINTR},
    {ERROR_NO_SYSTEM_RESOURCES, LINUX_ENOMEM},
    {ERROR_COMMITMENT_LIMIT, LINUX_ENOMEM},
    {ERROR_NOT_ENOUGH_QUOTA, LINUX_ENOMEM},
    {ERROR_CANT_ACCESS_FILE, LINUX_EACCES},
    {ERROR_CANT_RESOLVE_FILENAME, LINUX_ELOOP},
};

static int last_error;

int SYSV(rattle_errno)(void)
{
    return last_error;
}

void SYSV(rattle_set_errno)(int number)
{
    last_error = number;
}

/* Sets the error, and returns what a call returns that has failed. */
static int fails(int number)
{
    last_error = number;
    return -1;
}

/* Fails with what Linux reports for the last error of Windows. */
static int fails_as_windows(void)
{
    DWORD code = GetLastError();
    for (size_t i = 0; i < sizeof errors / sizeof errors[0]; i++) {
        if (errors[i].code == code) {
            return fails(errors[i].number);
        }
    }
    return fails(LINUX_EIO);
}

/* Writes the text of an error, with a NUL. Returns 0, or an error: the text doesn't fit, or there is none. */
int SYSV(__xpg_strerror_r)(int number, char *to, size_t capacity)
{
    for (size_t i = 0; i < sizeof texts / sizeof texts[0]; i++) {
        if (texts[i].number == number) {
            size_t size = strlen(texts[i].text) + 1;
            if (size > capacity) {
                return LINUX_ERANGE;
            }
            memcpy(to, texts[i].text, size);
            return 0;
        }
    }
    return LINUX_EINVAL;
}

/* A stream that is open. A console is read and written in UTF-16, so that letters are right under any code page, and no
   code page of the console is set and restored. A character of UTF-8 may come in two writes: its beginning is
   held until the rest comes. */
static struct stream {
    HANDLE handle; /* null if the stream isn't open */
    bool is_console;
    size_t held;
    char beginning[3];
} streams[STREAMS];

/* What has been read from the console and not passed on, in UTF-8, and the first half of a character whose second half
   hasn't been read. */
static struct {
    char bytes[MOST_OF_UNIT * CONSOLE_UNITS];
    size_t at;
    size_t end;
    wchar_t half;
} typed;

/* Returns the stream of that number, or null if none is open. */
static struct stream *stream_of(int number)
{
    return number >= 0 && number < STREAMS && streams[number].handle != NULL ? &streams[number] : NULL;
}

/* Makes a stream of a handle. A process may be started without a standard stream; this one then isn't open. */
static void set_stream(struct stream *stream, HANDLE handle)
{
    DWORD mode;
    memset(stream, 0, sizeof *stream);
    if (handle != INVALID_HANDLE_VALUE && handle != NULL) {
        stream->handle = handle;
        stream->is_console = GetConsoleMode(handle, &mode);
    }
}

static DWORD at_most(uint64_t length, DWORD most)
{
    return length < most ? (DWORD)length : most;
}

/* Puts what was typed into `typed`: UTF-8, with a line feed alone at the end of a line. Returns 1, 0 at the end of the
   input, or -1. */
static int take_typed(HANDLE console)
{
    static wchar_t units[CONSOLE_UNITS];
    DWORD kept = 0, count = 0, length = 0;
    if (typed.half != 0) {
        units[kept++] = typed.half;
        typed.half = 0;
    }
    if (!ReadConsoleW(console, units + kept, CONSOLE_UNITS - kept, &count, NULL)) {
        return fails_as_windows();
    }
    if (count == 0) {
        return fails(LINUX_EINTR); /* Control-C */
    }
    if (units[0] == CONTROL_Z) {
        return 0;
    }
    count += kept;
    if (IS_HIGH_SURROGATE(units[count - 1])) {
        typed.half = units[--count];
    }
    for (DWORD i = 0; i < count; i++) {
        if (units[i] != L'\r') {
            units[length++] = units[i];
        }
    }
    typed.at = 0;
    typed.end = 0;
    if (length != 0) {
        typed.end = (size_t)WideCharToMultiByte(CP_UTF8, 0, units, (int)length, typed.bytes, sizeof typed.bytes, NULL,
                                                NULL);
    }
    return 1;
}

static int64_t read_console(HANDLE console, char *to, uint64_t capacity)
{
    while (typed.at == typed.end && capacity != 0) {
        int status = take_typed(console);
        if (status <= 0) {
            return status;
        }
    }
    DWORD length = at_most(capacity, (DWORD)(typed.end - typed.at));
    memcpy(to, typed.bytes + typed.at, length);
    typed.at += length;
    return length;
}

/* Reads bytes. Returns how many; 0 at the end, which a pipe has when nobody writes it any more; or -1. */
int64_t SYSV(read)(int number, char *to, uint64_t capacity)
{
    struct stream *stream = stream_of(number);
    if (stream == NULL) {
        return fails(LINUX_EBADF);
    }
    if (stream->is_console) {
        return read_console(stream->handle, to, capacity);
    }
    DWORD count = 0;
    do {
        if (!ReadFile(stream->handle, to, at_most(capacity, MOST_AT_ONCE), &count, NULL)) {
            switch (GetLastError()) {
            case ERROR_BROKEN_PIPE:
            case ERROR_HANDLE_EOF:
                return 0;
            case ERROR_MORE_DATA: /* of a pipe that keeps messages apart; what fits was read */
                return count;
            case ERROR_NO_DATA: /* of a pipe that somebody made not wait; of a write it means that nobody reads */
                return fails(LINUX_EAGAIN);
            default:
                return fails_as_windows();
            }
        }
        /* A write of no bytes ends a read of a pipe, and isn't the end. */
    } while (count == 0 && capacity != 0 && GetNamedPipeInfo(stream->handle, NULL, NULL, NULL, NULL));
    return count;
}

/* Returns how many bytes at the end of a text are the beginning of a character whose rest isn't there. */
static size_t unfinished(const char *text, size_t length)
{
    for (size_t back = 1; back <= 3 && back <= length; back++) {
        unsigned char byte = (unsigned char)text[length - back];
        if (byte >= 0xC0) {
            size_t needed = byte >= 0xF0 ? 4 : byte >= 0xE0 ? 3 : 2;
            return needed > back ? back : 0;
        }
        if (byte < 0x80) {
            return 0;
        }
    }
    return 0;
}

/* Shows a text on a console. What isn't UTF-8 is shown as the character for that. Returns 0 or -1. */
static int show(HANDLE console, const char *text, size_t length)
{
    static wchar_t units[CONSOLE_UNITS];
    DWORD count = 0, shown = 0, done;
    if (length != 0) {
        count = (DWORD)MultiByteToWideChar(CP_UTF8, 0, text, (int)length, units, CONSOLE_UNITS);
    }
    for (; shown < count; shown += done) {
        if (!WriteConsoleW(console, units + shown, count - shown, &done, NULL)) {
            return fails_as_windows();
        }
        if (done == 0) {
            return fails(LINUX_EIO);
        }
    }
    return 0;
}

static int64_t write_console(struct stream *stream, const char *bytes, uint64_t length)
{
    static char text[CONSOLE_UNITS];
    size_t taken = at_most(length, (DWORD)(sizeof text - stream->held));
    memcpy(text, stream->beginning, stream->held);
    memcpy(text + stream->held, bytes, taken);
    size_t all = stream->held + taken;
    size_t held = unfinished(text, all);
    if (show(stream->handle, text, all - held) != 0) {
        return -1;
    }
    memcpy(stream->beginning, text + all - held, held);
    stream->held = held;
    return (int64_t)taken;
}

/* Writes bytes. Returns how many, or -1. */
int64_t SYSV(write)(int number, const char *bytes, uint64_t length)
{
    struct stream *stream = stream_of(number);
    if (stream == NULL) {
        return fails(LINUX_EBADF);
    }
    if (stream->is_console) {
        return write_console(stream, bytes, length);
    }
    DWORD count = 0;
    if (!WriteFile(stream->handle, bytes, at_most(length, MOST_AT_ONCE), &count, NULL)) {
        return fails_as_windows();
    }
    if (count == 0 && length != 0) {
        return fails(LINUX_EAGAIN); /* a pipe that is full, and that somebody made not wait */
    }
    return count;
}

/* Returns 1 for a console that shows colours, and has it show them from then on. The programs ask whether they write to
   a terminal only to colour what they write. */
int SYSV(isatty)(int number)
{
    struct stream *stream = stream_of(number);
    DWORD mode;
    return stream != NULL && stream->is_console && GetConsoleMode(stream->handle, &mode) &&
           SetConsoleMode(stream->handle, mode | ENABLE_VIRTUAL_TERMINAL_PROCESSING);
}

/* A program reports by this that the processor is too old. */
int64_t SYSV(__write)(int number, const char *bytes, uint64_t length)
{
    return sysv_write(number, bytes, length);
}

/* Opens a file, as CreateFileW does. */
static HANDLE open_wide(const wchar_t *path, DWORD flags)
{
    return CreateFileW(path, GENERIC_READ, FILE_SHARE_READ | FILE_SHARE_WRITE | FILE_SHARE_DELETE, NULL, OPEN_EXISTING,
                       flags, NULL);
}

/* Writes the path of a file in the form that may have more than MAX_PATH units: \\?\C:\.. or \\?\UNC\server\.. If the
   path is short, has that form, or has no full form, it stays as it is. */
static const wchar_t *long_path(const wchar_t *path)
{
    static const wchar_t drive[] = L"\\\\?\\", share[] = L"\\\\?\\UNC\\";
    enum { DRIVE = sizeof drive / sizeof drive[0] - 1, SHARE = sizeof share / sizeof share[0] - 1 };
    static wchar_t space[SHARE + MOST_OF_PATH];
    wchar_t *full = space + SHARE;
    DWORD length = GetFullPathNameW(path, MOST_OF_PATH, full, NULL);
    if (length < MAX_PATH || length >= MOST_OF_PATH || wcsncmp(full, drive, DRIVE) == 0 ||
        wcsncmp(full, L"\\\\.\\", 4) == 0) {
        return path;
    }
    if (wcsncmp(full, L"\\\\", 2) == 0) {
        return memcpy(full + 2 - SHARE, share, sizeof share - sizeof share[0]);
    }
    return memcpy(full - DRIVE, drive, sizeof drive - sizeof drive[0]);
}

/* Opens a file for reading, for which the programs give these flags alone: O_RDONLY | O_NOCTTY | O_CLOEXEC. Others may
   write, rename and delete it meanwhile, as on Linux. A folder can be opened, and not read. Returns the number of the
   stream, or -1. */
int SYSV(open)(const char *name, int flags)
{
    static wchar_t wide[MOST_OF_PATH];
    int number = STANDARD_ERROR + 1;
    if (flags != (0400 | 02000000)) {
        return fails(LINUX_EINVAL);
    }
    if (MultiByteToWideChar(CP_UTF8, MB_ERR_INVALID_CHARS, name, -1, wide, MOST_OF_PATH) == 0) {
        return fails(LINUX_ENOENT);
    }
    while (stream_of(number) != NULL) {
        number++;
    }
    if (number == STREAMS) {
        return fails(LINUX_EMFILE);
    }
    const wchar_t *path = long_path(wide);
    HANDLE file = open_wide(path, FILE_ATTRIBUTE_NORMAL);
    if (file == INVALID_HANDLE_VALUE && GetLastError() == ERROR_ACCESS_DENIED) {
        DWORD attributes = GetFileAttributesW(path);
        if (attributes != INVALID_FILE_ATTRIBUTES && attributes & FILE_ATTRIBUTE_DIRECTORY) {
            file = open_wide(path, FILE_FLAG_BACKUP_SEMANTICS);
        } else {
            SetLastError(ERROR_ACCESS_DENIED);
        }
    }
    if (file == INVALID_HANDLE_VALUE) {
        return fails_as_windows();
    }
    set_stream(&streams[number], file);
    return number;
}

int SYSV(close)(int number)
{
    struct stream *stream = stream_of(number);
    if (stream == NULL) {
        return fails(LINUX_EBADF);
    }
    HANDLE handle = stream->handle;
    set_stream(stream, NULL);
    return CloseHandle(handle) ? 0 : fails_as_windows();
}

/* The programs ask not to be ended by the signal of a closed pipe, which Windows doesn't have. */
void *SYSV(__sysv_signal)(int number, void *handler)
{
    (void)number;
    (void)handler;
    return NULL;
}

int64_t SYSV(rattle_arg)(uint64_t index, char *to, uint64_t capacity)
{
    return argument(index, to, capacity);
}

/* Copies the value of a variable of the environment without its NUL. Returns its length; -1 if there is no such variable,
   -2 if it doesn't fit. */
int64_t SYSV(rattle_env)(const char *name, char *to, uint64_t capacity)
{
    const char *value = getenv(name);
    return value == NULL ? -1 : copied(value, to, capacity);
}

const struct cpuid_feature *SYSV(__x86_get_cpuid_feature_leaf)(unsigned number)
{
    return cpuid_feature(number);
}

/* Returns a word in UTF-8. One that isn't Unicode, since it has half a character, becomes a byte that isn't UTF-8, so
   that the program rejects it. Returns null if memory runs out. */
static char *narrow(const wchar_t *word)
{
    static char unfit[] = "\xFF";
    int size = WideCharToMultiByte(CP_UTF8, WC_ERR_INVALID_CHARS, word, -1, NULL, 0, NULL, NULL);
    if (size == 0) {
        return unfit;
    }
    char *text = malloc((size_t)size);
    if (text != NULL) {
        WideCharToMultiByte(CP_UTF8, WC_ERR_INVALID_CHARS, word, -1, text, size, NULL, NULL);
    }
    return text;
}

/* Takes the folder from a program's name, and ".exe". */
static wchar_t *bare(wchar_t *name)
{
    wchar_t *begin = name;
    for (wchar_t *at = name; *at != 0; at++) {
        if (*at == L'/' || *at == L'\\' || *at == L':') {
            begin = at + 1;
        }
    }
    size_t length = wcslen(begin);
    if (length > 4 && _wcsicmp(begin + length - 4, L".exe") == 0) {
        begin[length - 4] = 0;
    }
    return begin;
}

/* What main was, before it was given the name with sysv_. It is called from a function of its own, since gcc 12 fails
   where such a call is part of a larger one. */
int SYSV(main)(int count, char **words);

static __attribute__((noinline)) int run(void)
{
    return sysv_main((int)argument_count, arguments);
}

/* Arguments are symbols, in which ? and * are letters: the C runtime must not look for files of such names. */
int _dowildcard = 0;

int wmain(int count, wchar_t **words)
{
    arguments = calloc((size_t)count + 1, sizeof *arguments);
    if (arguments == NULL) {
        return EXIT_FAILURE;
    }
    for (int i = 0; i < count; i++) {
        arguments[i] = narrow(i == 0 ? bare(words[i]) : words[i]);
        if (arguments[i] == NULL) {
            return EXIT_FAILURE;
        }
    }
    argument_count = (uint64_t)count;
    set_stream(&streams[STANDARD_INPUT], GetStdHandle(STD_INPUT_HANDLE));
    set_stream(&streams[STANDARD_OUTPUT], GetStdHandle(STD_OUTPUT_HANDLE));
    set_stream(&streams[STANDARD_ERROR], GetStdHandle(STD_ERROR_HANDLE));
    int status = run();
    for (int i = STANDARD_OUTPUT; i <= STANDARD_ERROR; i++) {
        if (streams[i].is_console) {
            show(streams[i].handle, streams[i].beginning, streams[i].held);
        }
    }
    return status;
}
