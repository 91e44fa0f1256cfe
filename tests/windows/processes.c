/* Starts the programs as only a process of Windows can, over pipes of Windows:

       processes FOLDER

   FOLDER has undname.exe and msvcfilt.exe. A run that ends otherwise than it should is printed; the last line
   counts. */

#include <stdbool.h>
#include <stdio.h>
#include <stdlib.h>
#include <string.h>
#include <windows.h>

enum { INPUT_END, OUTPUT_END, ERROR_END, ENDS };

/* A program that runs, and this process's ends of its standard streams. */
struct run {
    HANDLE process;
    HANDLE ends[ENDS];
};

static const wchar_t *folder;
static int runs;
static int wrong;

static void see(bool good, const char *what)
{
    if (!good) {
        printf("%s: ends otherwise\n", what);
        wrong++;
    }
}

/* Starts a program with these words after its name, over three pipes. Without streams it has none. */
static struct run start(const wchar_t *program, const wchar_t *words, bool has_streams)
{
    struct run run = {NULL, {NULL, NULL, NULL}};
    HANDLE theirs[ENDS] = {NULL, NULL, NULL};
    SECURITY_ATTRIBUTES inherited = {sizeof inherited, NULL, TRUE};
    for (int n = 0; has_streams && n < ENDS; n++) {
        HANDLE reader, writer;
        if (!CreatePipe(&reader, &writer, &inherited, 0)) {
            exit(2);
        }
        theirs[n] = n == INPUT_END ? reader : writer;
        run.ends[n] = n == INPUT_END ? writer : reader;
        SetHandleInformation(run.ends[n], HANDLE_FLAG_INHERIT, 0);
    }
    STARTUPINFOW startup = {.cb = sizeof startup, .dwFlags = STARTF_USESTDHANDLES};
    startup.hStdInput = theirs[INPUT_END];
    startup.hStdOutput = theirs[OUTPUT_END];
    startup.hStdError = theirs[ERROR_END];
    wchar_t line[1024];
    PROCESS_INFORMATION started;
    _snwprintf(line, sizeof line / sizeof line[0], L"\"%ls\\%ls.exe\" %ls", folder, program, words);
    if (!CreateProcessW(NULL, line, NULL, NULL, TRUE, DETACHED_PROCESS, NULL, NULL, &startup, &started)) {
        printf("error %lu: no process\n", GetLastError());
        exit(2);
    }
    CloseHandle(started.hThread);
    for (int n = 0; n < ENDS; n++) {
        if (theirs[n] != NULL) {
            CloseHandle(theirs[n]);
        }
    }
    run.process = started.hProcess;
    runs++;
    return run;
}

/* Closes an end, if it is open. */
static void leave(struct run *run, int stream)
{
    if (run->ends[stream] != NULL) {
        CloseHandle(run->ends[stream]);
        run->ends[stream] = NULL;
    }
}

static void writes(struct run *run, const char *text)
{
    DWORD count;
    WriteFile(run->ends[INPUT_END], text, (DWORD)strlen(text), &count, NULL);
}

/* Returns whether the program next writes this text to that stream. */
static bool gives(struct run *run, int stream, const char *text)
{
    char got[256];
    DWORD length = 0, count, wanted = (DWORD)strlen(text);
    while (length < wanted && ReadFile(run->ends[stream], got + length, wanted - length, &count, NULL) && count > 0) {
        length += count;
    }
    return length == wanted && memcmp(got, text, wanted) == 0;
}

/* Returns whether that stream has ended. */
static bool is_silent(struct run *run, int stream)
{
    char byte;
    DWORD count = 0;
    return !ReadFile(run->ends[stream], &byte, 1, &count, NULL) || count == 0;
}

/* Closes the program's input. Returns whether it ends with this status within a minute. */
static bool ends(struct run *run, DWORD status)
{
    DWORD found = 0;
    leave(run, INPUT_END);
    bool good = WaitForSingleObject(run->process, 60000) == WAIT_OBJECT_0 &&
                GetExitCodeProcess(run->process, &found) && found == status;
    TerminateProcess(run->process, 99);
    CloseHandle(run->process);
    leave(run, OUTPUT_END);
    leave(run, ERROR_END);
    return good;
}

/* An argument with half a character has no form in UTF-8. */
static void try_half_characters(void)
{
    static const wchar_t words[] = {L'"', L'?', L'x', 0xD83D, L'@', L'@', L'3', L'H', L'A', L'"', 0};
    struct run run = start(L"undname", words, true);
    see(gives(&run, ERROR_END, "undname: argument is not UTF-8\n") && is_silent(&run, OUTPUT_END) && ends(&run, 2),
        "undname with half a character");
    run = start(L"msvcfilt", words, true);
    see(gives(&run, ERROR_END, "msvcfilt: argument is not UTF-8\n") && is_silent(&run, OUTPUT_END) && ends(&run, 2),
        "msvcfilt with half a character");
}

/* Arguments with letters beyond ASCII, with spaces, quotes and marks by which the C runtime would look for files. */
static void try_arguments(void)
{
    struct run run = start(L"undname", L"?\u00e4\u20ac@\xD83D\xDE00@@3HA \"a b\" \"a\\\"b\\\\\" \"\" *.* ?", true);
    see(gives(&run, OUTPUT_END, "int \xf0\x9f\x98\x80::\xc3\xa4\xe2\x82\xac\na b\na\"b\\\n\n*.*\n?\n") && ends(&run, 0),
        "undname with words");
}

static void try_conversations(void)
{
    struct run run = start(L"undname", L"", true);
    writes(&run, "?x@@3HA\r\n");
    see(gives(&run, OUTPUT_END, "int x\n"), "undname demangles");
    writes(&run, "nope\n?f");
    see(gives(&run, ERROR_END, "error: does not start with b'?' (offset: 0, remaining: \"nope\")\n") &&
            gives(&run, OUTPUT_END, "nope\n"),
        "undname echoes a line that is no symbol");
    writes(&run, "@@");
    see(ends(&run, 0), "undname after a conversation");

    run = start(L"msvcfilt", L"-n", true);
    writes(&run, "a ?x@@3HA\r\n\x1a\n");
    see(gives(&run, OUTPUT_END, "a x\r\n\x1a\n"), "msvcfilt filters");
    writes(&run, "what?\n");
    see(gives(&run, OUTPUT_END, "what?\n"), "msvcfilt filters again");
    see(ends(&run, 0), "msvcfilt after a conversation");
}

/* The reader of what a program writes has left. */
static void try_closed_pipes(void)
{
    struct run run = start(L"undname", L"", true);
    leave(&run, OUTPUT_END);
    writes(&run, "?x@@3HA\n");
    see(gives(&run, ERROR_END, "undname: write failed\n") && ends(&run, 1), "undname and a closed pipe");

    run = start(L"msvcfilt", L"", true);
    leave(&run, OUTPUT_END);
    writes(&run, "?x@@3HA\n");
    see(is_silent(&run, ERROR_END) && ends(&run, 1), "msvcfilt and a closed pipe");
}

/* A file that another process writes can be read, unless that one lets nobody read it. */
static void try_open_files(void)
{
    static const char text[] = "at ?x@@3HA\n";
    HANDLE file = CreateFileW(L"open.txt", GENERIC_WRITE, FILE_SHARE_READ, NULL, CREATE_ALWAYS, 0, NULL);
    DWORD count;
    WriteFile(file, text, sizeof text - 1, &count, NULL);
    struct run run = start(L"msvcfilt", L"open.txt", true);
    see(gives(&run, OUTPUT_END, "at int x\n") && ends(&run, 0), "msvcfilt and an open file");
    CloseHandle(file);

    file = CreateFileW(L"open.txt", GENERIC_WRITE, 0, NULL, OPEN_EXISTING, 0, NULL);
    run = start(L"msvcfilt", L"open.txt", true);
    see(gives(&run, ERROR_END, "msvcfilt: open.txt: Device or resource busy (os error 16)\n") && ends(&run, 1),
        "msvcfilt and a file that is not shared");
    CloseHandle(file);
    DeleteFileW(L"open.txt");
}

/* A program may be started without standard streams. */
static void try_no_streams(void)
{
    struct run run = start(L"undname", L"?x@@3HA", false);
    see(ends(&run, 1), "undname without streams");
    run = start(L"msvcfilt", L"", false);
    see(ends(&run, 1), "msvcfilt without streams");
}

int wmain(int count, wchar_t **words)
{
    if (count != 2) {
        fputs("usage: processes FOLDER\n", stderr);
        return 2;
    }
    folder = words[1];
    try_half_characters();
    try_arguments();
    try_conversations();
    try_closed_pipes();
    try_open_files();
    try_no_streams();
    printf("%d runs over pipes of Windows, %d things wrong\n", runs, wrong);
    return wrong != 0;
}
