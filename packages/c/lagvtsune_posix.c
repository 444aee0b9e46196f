/* Scripts and live requests for C programs on a POSIX system. SPDX-License-Identifier: MIT OR Apache-2.0 */
#define _POSIX_C_SOURCE 200809L
#include "lagvtsune_posix.h"
#include <dirent.h>
#include <limits.h>
#include <stdlib.h>
#include <string.h>
#include <sys/stat.h>
#include <unistd.h>

#ifndef PATH_MAX
#define PATH_MAX 4096
#endif

#define BYTES(text) (const uint8_t *)(text), strlen(text)

/* The size of the first room for a text. A longer text takes a second call. */
enum { FIRST_ROOM = 1 << 16 };

/* The most bytes of a command's output that count: 16 MiB. */
enum { MOST_OUTPUT = 16 << 20 };

/* The number of directories that one request may need. The library asks for at most one. */
enum { MOST_DIRECTORIES = 4 };

/* Copies of texts. */
struct list {
    lagvtsune_bytes *start;
    size_t length;
};

/* Bytes in a room: the text of a call, or the output of a command. */
struct text {
    uint8_t *room;
    size_t size, length;
};

/* What a live request is made of. */
struct request {
    const char *tree;
    struct list words, variables, names, folders, files;
    struct text output;
    char *listed;
};

static const lagvtsune_bytes NOTHING = {(const uint8_t *)"", 0};

/* The variables that registrations set. */
static const char *const REQUESTS[] = {"COMPLETE", "_COMPLGEN_VALUES", "_COMPLGEN_ASCII", "_COMPLGEN_KEPT",
    "_COMPLGEN_QUOTE", "_COMPLGEN_WIDTH", "_COMPLGEN_SPACE", "_CLAP_COMPLETE_INDEX", "_CLAP_IFS"};

static const char OUT_OF_MEMORY[] = "out of memory\n";

/* Returns the length of the sequence with which a text begins, or 0 if it is not UTF-8. */
static size_t sequence(const unsigned char *text)
{
    unsigned char first = text[0];
    size_t length = first < 0x80 ? 1 : first < 0xC2 ? 0 : first < 0xE0 ? 2 : first < 0xF0 ? 3 : first < 0xF5 ? 4 : 0;
    unsigned char least = first == 0xE0 ? 0xA0 : first == 0xF0 ? 0x90 : 0x80;
    unsigned char most = first == 0xED ? 0x9F : first == 0xF4 ? 0x8F : 0xBF;
    for (size_t place = 1; place < length; place++) {
        if (text[place] < least || text[place] > most)
            return 0;
        least = 0x80, most = 0xBF;
    }
    return length;
}

static bool is_utf8(const char *text)
{
    const unsigned char *at = (const unsigned char *)text;
    while (*at != '\0') {
        size_t length = sequence(at);
        if (length == 0)
            return false;
        at += length;
    }
    return true;
}

/* Adds a copy of a text. Returns whether there was memory. */
static bool put(struct list *to, const char *text)
{
    lagvtsune_bytes *start = realloc(to->start, (to->length + 1) * sizeof *start);
    if (start == NULL)
        return false;
    to->start = start;
    char *copy = strdup(text);
    if (copy == NULL)
        return false;
    to->start[to->length++] = (lagvtsune_bytes){(uint8_t *)copy, strlen(copy)};
    return true;
}

static void clear(struct list *list)
{
    for (size_t place = 0; place < list->length; place++)
        free((void *)list->start[place].start);
    free(list->start);
    *list = (struct list){NULL, 0};
}

/* Adds a variable. One that is NULL or not UTF-8 is left out. */
static bool put_variable(struct list *to, const char *name, const char *value)
{
    return value == NULL || !is_utf8(value) || (put(to, name) && put(to, value));
}

static bool put_variables(struct list *to)
{
    char here[PATH_MAX];
    const char *home = getenv("HOME");
    for (size_t place = 0; place < sizeof REQUESTS / sizeof *REQUESTS; place++) {
        const char *value = getenv(REQUESTS[place]);
        if (value != NULL && !(put(to, REQUESTS[place]) && put(to, value)))
            return false;
    }
    return put_variable(to, "COMPLGEN_COMMANDS", getenv("COMPLGEN_COMMANDS"))
        && put_variable(to, "HOME", home != NULL && *home != '\0' ? home : NULL)
        && put_variable(to, "PWD", getcwd(here, sizeof here));
}

/* Cuts an output that is too long after the last line that ends within the limit. */
static void cut_output(struct text *output)
{
    if (output->length <= MOST_OUTPUT)
        return;
    output->length = MOST_OUTPUT;
    while (output->length > 0 && output->room[output->length - 1] != '\n')
        output->length--;
}

/* Reads the standard input, one byte past the limit at most. Returns whether there was memory. */
static bool read_output(struct text *output)
{
    while (output->length == output->size && output->size <= MOST_OUTPUT) {
        size_t more = output->size == 0 ? FIRST_ROOM : output->size;
        size_t size = output->size + more <= MOST_OUTPUT ? output->size + more : MOST_OUTPUT + 1;
        uint8_t *room = realloc(output->room, size);
        if (room == NULL)
            return false;
        output->room = room, output->size = size;
        output->length += fread(room + output->length, 1, size - output->length, stdin);
    }
    cut_output(output);
    return true;
}

/* Reads the output of a command if the registration passes it on. Returns whether there was memory. */
static bool put_output(struct text *output)
{
    const char *values = getenv("_COMPLGEN_VALUES");
    return values == NULL || strcmp(values, "stdin") != 0 || read_output(output);
}

/* Adds a path to the directories or to the files, if it leads to one. */
static bool put_kind(struct request *request, const char *path)
{
    struct stat found;
    if (stat(path, &found) != 0)
        return true;
    if (S_ISDIR(found.st_mode))
        return put(&request->folders, path);
    return !S_ISREG(found.st_mode) || put(&request->files, path);
}

/* Adds a name in the listed directory, and its kind. */
static bool put_name(struct request *request, const char *name)
{
    if (strcmp(name, ".") == 0 || strcmp(name, "..") == 0 || !is_utf8(name))
        return true;
    size_t before = strlen(request->listed);
    char *path = malloc(before + strlen(name) + 2);
    if (path == NULL)
        return false;
    bool has_slash = before > 0 && request->listed[before - 1] == '/';
    strcpy(path, request->listed);
    strcpy(path + before, has_slash ? "" : "/");
    strcat(path, name);
    bool put_both = put(&request->names, name) && put_kind(request, path);
    free(path);
    return put_both;
}

/* Makes the directory of a text the listed one. An unreadable directory has no names. */
static bool list_directory(struct request *request, const struct text *path)
{
    clear(&request->names), clear(&request->folders), clear(&request->files);
    free(request->listed);
    request->listed = strndup((const char *)path->room, path->length);
    if (request->listed == NULL || !put_kind(request, request->listed))
        return false;
    DIR *directory = opendir(request->listed);
    if (directory == NULL)
        return true;
    bool has_memory = true;
    struct dirent *entry;
    while (has_memory && (entry = readdir(directory)) != NULL)
        has_memory = put_name(request, entry->d_name);
    closedir(directory);
    return has_memory;
}

/* Returns a list whose pointer is not NULL. */
static lagvtsune_list slices(const struct list *list)
{
    return (lagvtsune_list){list->start != NULL ? list->start : &NOTHING, list->length};
}

static size_t call_live(const struct request *it, const struct text *text, uint8_t *status)
{
    const char *listed = it->listed != NULL ? it->listed : "";
    const uint8_t *output = it->output.room != NULL ? it->output.room : NOTHING.start;
    const lagvtsune_request request = {
        .tree = {BYTES(it->tree)},
        .words = slices(&it->words),
        .variables = slices(&it->variables),
        .output = {output, it->output.length},
        .listed = {BYTES(listed)},
        .names = slices(&it->names),
        .folders = slices(&it->folders),
        .files = slices(&it->files),
    };
    return lagvtsune_live(&request, text->room, text->size, status);
}

/* Provides a room of at least this size. Returns whether there was memory. */
static bool make_room(struct text *text, size_t size)
{
    free(text->room);
    text->room = calloc(size, 1);
    text->size = text->room != NULL ? size : 0;
    return text->room != NULL;
}

/* Makes the call, again if its text needs more room. Returns the status, or -1 without memory. */
static int live(const struct request *request, struct text *text)
{
    uint8_t status = LAGVTSUNE_FAILED;
    text->length = call_live(request, text, &status);
    while (text->length > text->size) {
        if (!make_room(text, text->length))
            return -1;
        text->length = call_live(request, text, &status);
    }
    return status;
}

/* Makes the call, again with the names in the directory that it needs. */
static int answer(struct request *request, struct text *text)
{
    int status = live(request, text);
    for (int count = 0; status == LAGVTSUNE_WANTS_FOLDER && count < MOST_DIRECTORIES; count++)
        status = list_directory(request, text) ? live(request, text) : -1;
    return status;
}

/* Writes the text of a call, or its message. Returns the status for the caller. */
static int finish(int status, const struct text *text, FILE *out)
{
    if (status == LAGVTSUNE_NOT_REQUESTED)
        return status;
    if (status == LAGVTSUNE_MADE || status == LAGVTSUNE_RUN || status == LAGVTSUNE_MADE_WITHOUT_SPACE) {
        bool is_written = fwrite(text->room, 1, text->length, out) == text->length && fflush(out) == 0;
        if (!is_written)
            perror("write");
        return is_written ? status : LAGVTSUNE_FAILED;
    }
    if (status == LAGVTSUNE_FAILED)
        fwrite(text->room, 1, text->length, stderr);
    else if (status == LAGVTSUNE_NOT_UTF8)
        fputs("an argument is not UTF-8\n", stderr);
    else
        fputs(status == -1 ? OUT_OF_MEMORY : "no reply\n", stderr);
    return LAGVTSUNE_FAILED;
}

int lagvtsune_complete(const char *tree, int argc, char *const argv[])
{
    const char *shell = getenv("COMPLETE");
    if (shell == NULL || *shell == '\0' || strcmp(shell, "0") == 0)
        return LAGVTSUNE_NOT_REQUESTED;
    struct request request = {.tree = tree};
    struct text text = {NULL, 0, 0};
    bool has_memory = make_room(&text, FIRST_ROOM) && put_variables(&request.variables)
        && put_output(&request.output);
    for (int place = 0; has_memory && place < argc; place++)
        has_memory = put(&request.words, argv[place]);
    int status = finish(has_memory ? answer(&request, &text) : -1, &text, stdout);
    clear(&request.words), clear(&request.variables);
    clear(&request.names), clear(&request.folders), clear(&request.files);
    free(request.output.room), free(request.listed), free(text.room);
    return status;
}

int lagvtsune_exit_status(int result)
{
    switch (result) {
    case LAGVTSUNE_MADE:
        return 0;
    case LAGVTSUNE_RUN:
        return 3;
    case LAGVTSUNE_MADE_WITHOUT_SPACE:
        return 4;
    default:
        return 2;
    }
}

int lagvtsune_write_script(const char *shell, const char *bin, const char *tree, FILE *out)
{
    struct text text = {NULL, 0, 0};
    uint8_t made = LAGVTSUNE_FAILED;
    int status = make_room(&text, FIRST_ROOM) ? LAGVTSUNE_MADE : -1;
    while (status != -1) {
        text.length = lagvtsune_script(BYTES(shell), BYTES(bin), BYTES(tree), text.room, text.size, &made);
        status = made;
        if (text.length <= text.size)
            break;
        status = make_room(&text, text.length) ? status : -1;
    }
    status = finish(status, &text, out);
    free(text.room);
    return status;
}
