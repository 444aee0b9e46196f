/*
 * lagvtsune.h - shell completions for a command that a tree file describes.
 *
 * The library has four functions: they make scripts, make registrations, answer live requests of shells,
 * and tell for which values a word is asked. They are those of the crate complgen_c of the Lagvtsune
 * project. The comment of each function is that of its source, with its contract. The contract is proved
 * for all arguments that meet the rules below. Nothing checks that your program meets these rules.
 *
 * release/declarations.py compares the comments, the contracts and the declarations with the source.
 *
 * SPDX-License-Identifier: MIT OR Apache-2.0
 */
#ifndef LAGVTSUNE_H
#define LAGVTSUNE_H

#include <stdbool.h>
#include <stddef.h>
#include <stdint.h>

#ifdef __cplusplus
extern "C" {
#endif

/*
 * Your program must meet these rules at each call:
 *
 * - Each pointer points to as many bytes, or elements, as the length that follows it says. `names` and
 *   `request` point to one record each. They do not change until the function returns. No pointer is
 *   null, even if its length is 0. A length is at most PTRDIFF_MAX.
 * - `room` and `status` overlap neither each other nor another argument. They are memory that was
 *   written before, with any contents.
 * - The processor has the instructions of x86-64-v2. The library does not check that.
 * - You may call the functions from any thread, and from several threads at once. Do not call them
 *   from a signal handler, or in the child of a fork of a process that has threads.
 *
 * For its part, a function keeps no pointer. It frees the memory that it allocates, by the three
 * functions at the end. It reads no file, no environment variable and no clock. It writes `*status`, and
 * the first `result` bytes of `room` if they fit there, and nothing else. It returns if the stack
 * suffices: each level of subcommands takes some of it.
 *
 * How to read a contract: `tree.now` is the bytes at `tree`, `request.now` is the record at `request`,
 * `room.old` and `room.new` are the bytes in the room before and after the call, and `result` is what the
 * function returns. `EndsAs` states that an outcome exists that fits the arguments, and that the status,
 * the length and the room are those of this outcome. A text that is longer than the room leaves the room
 * unchanged. The definitions are in crates/complgen_c/specs.
 */

/* A slice of bytes. */
typedef struct lagvtsune_bytes {
    const uint8_t *start;
    size_t length;
} lagvtsune_bytes;

/* A list of such slices. */
typedef struct lagvtsune_list {
    const lagvtsune_bytes *start;
    size_t length;
} lagvtsune_list;

/* The names in a registration. */
typedef struct lagvtsune_names {
    lagvtsune_bytes variable;  /* the variable that requests completions from the completer */
    lagvtsune_bytes name;      /* the name of the command, which is part of the names of functions */
    lagvtsune_bytes bin;       /* the program whose words are completed */
    lagvtsune_bytes completer; /* the program that the shell runs at a Tab */
} lagvtsune_names;

/* A live request. The comment of lagvtsune_live explains its parts. */
typedef struct lagvtsune_request {
    lagvtsune_bytes tree;     /* the tree file */
    lagvtsune_list words;     /* the program's arguments, starting with its name */
    lagvtsune_list variables; /* names and values of variables, alternating */
    lagvtsune_bytes output;   /* the output of a command */
    lagvtsune_bytes listed;   /* the path of a directory */
    lagvtsune_list names;     /* the names in that directory */
    lagvtsune_list folders;   /* the paths of directories */
    lagvtsune_list files;     /* the paths of files */
} lagvtsune_request;

/* The values of `*status`. */
enum {
    LAGVTSUNE_MADE = 0,          /* the text is the script, the registration, the reply or the values */
    LAGVTSUNE_FAILED = 1,        /* the text is a message that ends in a line feed */
    LAGVTSUNE_NOT_UTF8 = 2,      /* an argument is not UTF-8; there is no text, and the result is 0 */
    LAGVTSUNE_NOT_REQUESTED = 3, /* lagvtsune_live: no shell requests anything; the result is 0 */
    LAGVTSUNE_WANTS_FOLDER = 4,  /* lagvtsune_live: the text is the path of a directory; its names are needed */
    LAGVTSUNE_RUN = 5,           /* lagvtsune_live: the text is the words of a command; the shell runs it */
    LAGVTSUNE_MADE_WITHOUT_SPACE = 6 /* lagvtsune_live: the text is a reply; no space follows its values */
};

/*
 * Makes the script for the shell with the name `shell`, of the command in the tree file `tree`,
 * under the bin name `bin`. Returns the length of the text, and copies the text to the start of
 * `room` if it fits there. Otherwise `room` stays unchanged, and you can call again with more room.
 * You may pass any bytes.
 *
 * The `status` is:
 *
 * - 0: the text is the script.
 * - 1: the text is a message, which ends in a line feed.
 * - 2: `shell` or `bin` is not UTF-8, and there is no text.
 *
 * Proved (`crates/complgen_c/src/scripts.rt`):
 *
 *     EndsAs (MakesScript shell.now bin.now tree.now) room.old room.new status.new result
 */
size_t lagvtsune_script(const uint8_t *shell, size_t shell_length,
                        const uint8_t *bin, size_t bin_length,
                        const uint8_t *tree, size_t tree_length,
                        uint8_t *room, size_t room_length,
                        uint8_t *status);

/*
 * Makes the registration for the shell with the name `shell`: the text by which that shell runs the
 * completer at a Tab. If `safe` is true, it is the one of the safe set, which evaluates no name, no
 * value and no typed word. Otherwise it is the original's. Returns the length of the text, and
 * copies the text to the start of `room` if it fits there. Otherwise `room` stays unchanged, and
 * you can call again with more room. You may pass any bytes.
 *
 * `names` has the names in the text:
 *
 * - `variable` requests completions, by the name of the shell as its value. `COMPLETE` is usual.
 * - `name` is the name of the command, which is part of the names of functions.
 * - `bin` is the program whose words are completed.
 * - `completer` is the program that the shell runs: a name that is looked up in `PATH`, or a path.
 *
 * The safe set quotes `bin` and `completer`, and writes the other two as identifiers: with `_` for
 * each byte that is not an ASCII letter, a digit or `_`, and before a digit at the start. An empty
 * one becomes `_`. The original's set writes `variable` and `name` without quotes, and in bash also
 * `bin`. So pass only plain names there.
 *
 * The `status` is:
 *
 * - 0: the text is the registration.
 * - 1: the text is a message, which ends in a line feed.
 * - 2: `shell` or one of the names is not UTF-8, and there is no text.
 *
 * Proved (`crates/complgen_c/src/registrations.rt`):
 *
 *     EndsAs (MakesRegistration safe shell.now (passed_names names.now)) room.old room.new
 *     status.new result
 */
size_t lagvtsune_registration(bool safe, const uint8_t *shell, size_t shell_length,
                              const lagvtsune_names *names,
                              uint8_t *room, size_t room_length,
                              uint8_t *status);

/*
 * Answers the request of a shell to the program that a tree file describes: with the registration,
 * with the candidates, or with a command that lists values. Returns the length of the text, and
 * copies the text to the start of `room` if it fits there. Otherwise `room` stays unchanged, and
 * you can call again with more room. You may pass any bytes.
 *
 * `request` has the following parts. `tree` is the tree file. `words` are the program's arguments,
 * starting with its name. `variables` are names and values, alternating:
 *
 * - `COMPLETE` makes the request, and its value names the shell.
 * - `_COMPLGEN_VALUES`, `_COMPLGEN_ASCII`, `_COMPLGEN_KEPT`, `_COMPLGEN_QUOTE`, `_COMPLGEN_WIDTH`
 *   and `_COMPLGEN_SPACE` have the values that the registration sets. A registration of the
 *   original's form sets `_CLAP_COMPLETE_INDEX` and `_CLAP_IFS` instead.
 * - `COMPLGEN_COMMANDS` turns off the commands of `values_from` if it is `0`.
 * - `HOME` is the user's home directory, and `PWD` the directory where relative paths begin.
 *
 * `output` is what the command of an argument with `values_from` printed. It counts only if
 * `_COMPLGEN_VALUES` is `stdin`. In that case, your program reads it from the standard input.
 * Otherwise, pass no bytes. Pass only the tree of your own program, because the user's shell runs
 * the commands that it names. This function offers no values for `values_file` and for the hints
 * `Username`, `Hostname` and `CommandName`.
 *
 * `names` are the names in the directory at the path `listed`, or none if it can't be read.
 * `folders` and `files` are the paths of directories and of files, among these: that directory
 * itself, and its names, each joined to `listed` by one slash. Any other path counts as neither.
 *
 * The `status` is:
 *
 * - 0: the text is made.
 * - 1: the text is a message, which ends in a line feed.
 * - 2: a word, a variable or a name is not UTF-8, and there is no text.
 * - 3: nothing is requested, and there is no text.
 * - 4: the text is the path of another directory. Call again with the names in that one.
 * - 5: the text is the words of a command, each with a vertical tab after it. Write the text to the
 *   standard output, and end your program with exit status 3. The shell then runs the command, and
 *   makes the request again. In that request, `_COMPLGEN_VALUES` is `stdin`.
 * - 6: the text is made, a reply after whose values no space follows. Write the text to the
 *   standard output, and end your program with exit status 4.
 *
 * Proved (`crates/complgen_c/src/live.rt`):
 *
 *     EndsAs (RepliesTo request.now) room.old room.new status.new result
 */
size_t lagvtsune_live(const lagvtsune_request *request,
                      uint8_t *room, size_t room_length,
                      uint8_t *status);

/*
 * Tells for which values the candidates of the last of `words` ask, if these are the words of a
 * command line of the program in the tree file `tree`, the program's name first. Returns the length
 * of the text, and copies the text to the start of `room` if it fits there. Otherwise `room` stays
 * unchanged, and you can call again with more room. You may pass any bytes.
 *
 * The text has three parts for each value: the id of the argument, the number of the value in one
 * use of the argument, counted from 0, and the end of the word that is the value so far. Each part
 * has a NUL after it, so a part with a NUL is not read back. First comes the next value of an open
 * option, then the value within the word, then the value of the positional. An argument is among
 * them whether or not it has `values_from`.
 *
 * The `status` is:
 *
 * - 0: the text is made.
 * - 1: the text is a message, which ends in a line feed.
 * - 2: a word is not UTF-8, and there is no text.
 *
 * Proved (`crates/complgen_c/src/asked_values.rt`):
 *
 *     EndsAs (MakesAsked tree.now (handed words.now)) room.old room.new status.new result
 */
size_t lagvtsune_asked(const uint8_t *tree, size_t tree_length,
                       const lagvtsune_bytes *words, size_t words_length,
                       uint8_t *room, size_t room_length,
                       uint8_t *status);

/*
 * The memory of the library. liblagvtsune.a defines these three functions by malloc, realloc and free,
 * in an object file of its own. If your program defines all three, the linker takes yours instead.
 * liblagvtsune.so always uses its own, and exports none of them.
 *
 * - rattle_alloc allocates `size` bytes, or at least one if `size` is 0. The block is aligned to
 *   `align`, a power of two up to 16, and overlaps no other memory in use. If there is no memory, `ok`
 *   is false, `block` is any pointer but null, and the library's call fails with "out of memory".
 * - rattle_realloc changes the size of a block, of which `kept` bytes are in use. The new block starts
 *   with the smaller number, of `kept` and `size`, of the old bytes. If it fails, the old block stays.
 * - rattle_dealloc frees a block that one of the other two returned. None of the three may unwind.
 */
typedef struct lagvtsune_tried {
    bool ok;
    uint8_t *block;
} lagvtsune_tried;

lagvtsune_tried rattle_alloc(size_t size, size_t align);
lagvtsune_tried rattle_realloc(uint8_t *block, size_t kept, size_t size, size_t align);
void rattle_dealloc(uint8_t *block);

#ifdef __cplusplus
}
#endif

#endif
