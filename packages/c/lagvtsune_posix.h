/*
 * lagvtsune_posix.h - scripts and live requests for C programs on a POSIX system.
 *
 * Compile lagvtsune_posix.c with your program. It passes the environment, the names in directories and
 * the output of a command to the library, and repeats a call that needs more room or another directory.
 *
 * SPDX-License-Identifier: MIT OR Apache-2.0
 */
#ifndef LAGVTSUNE_POSIX_H
#define LAGVTSUNE_POSIX_H

#include <lagvtsune.h>
#include <stdio.h>

#ifdef __cplusplus
extern "C" {
#endif

/*
 * Answers a completion request of a shell, for the command in the tree file `tree`. Call it before your
 * program does anything else, with the arguments of main. If _COMPLGEN_VALUES is `stdin`, it reads the
 * standard input, which has what a command printed. Only the lines in the first 16 MiB count.
 *
 * Returns LAGVTSUNE_NOT_REQUESTED if the variable COMPLETE requests nothing. Otherwise your program should
 * then end with the status that lagvtsune_exit_status returns. The function returns
 *
 * - LAGVTSUNE_MADE after it wrote the registration or the reply to stdout;
 * - LAGVTSUNE_MADE_WITHOUT_SPACE after it wrote a reply there, after whose values no space follows;
 * - LAGVTSUNE_RUN after it wrote the words of a command there, which the shell then runs;
 * - LAGVTSUNE_FAILED after it wrote a message to stderr.
 */
int lagvtsune_complete(const char *tree, int argc, char *const argv[]);

/*
 * Returns the exit status after one of these results: 0 after LAGVTSUNE_MADE, 3 after LAGVTSUNE_RUN, 4
 * after LAGVTSUNE_MADE_WITHOUT_SPACE, and otherwise 2. The shell runs a command only after the status 3.
 */
int lagvtsune_exit_status(int result);

/*
 * Writes the script for the shell with the name `shell`, of the command in the tree file `tree`, under
 * the bin name `bin`, to `out`. Returns LAGVTSUNE_MADE, or LAGVTSUNE_FAILED after a message on stderr.
 */
int lagvtsune_write_script(const char *shell, const char *bin, const char *tree, FILE *out);

#ifdef __cplusplus
}
#endif

#endif
