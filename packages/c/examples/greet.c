/*
 * A program that completes itself and writes its scripts.
 *
 *     cc -o greet greet.c lagvtsune_posix.c $(pkg-config --cflags --libs lagvtsune)
 *     ./greet --completions bash
 *     source <(COMPLETE=bash ./greet)
 */
#include <lagvtsune_posix.h>
#include <stdio.h>
#include <string.h>

static const char TREE[] = "{\"name\": \"greet\", \"args\": ["
    "{\"id\": \"completions\", \"long\": \"completions\", \"value_names\": [\"SHELL\"], \"possible_values\":"
    " [{\"name\": \"bash\"}, {\"name\": \"fish\"}, {\"name\": \"zsh\"}], \"help\": \"Write a script\"},"
    "{\"id\": \"user\", \"long\": \"user\", \"help\": \"A user of this system\","
    " \"values_from\": [\"cut\", \"-d:\", \"-f1\", \"/etc/passwd\"]},"
    "{\"id\": \"loud\", \"short\": \"l\", \"long\": \"loud\", \"action\": \"SetTrue\", \"help\": \"Shout\"},"
    "{\"id\": \"file\", \"help\": \"A file with a name in it\", \"value_hint\": \"FilePath\"}]}";

int main(int argc, char **argv)
{
    int result = lagvtsune_complete(TREE, argc, argv);
    if (result != LAGVTSUNE_NOT_REQUESTED)
        return lagvtsune_exit_status(result);
    if (argc == 3 && strcmp(argv[1], "--completions") == 0)
        return lagvtsune_exit_status(lagvtsune_write_script(argv[2], "greet", TREE, stdout));
    printf("Hello, %s\n", argc > 1 ? argv[argc - 1] : "world");
    return 0;
}
