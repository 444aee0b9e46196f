/* Writes down the options that a program gives to getopt, getopt_long, getopt_long_only or argp_parse.

   `capture_truths.py` builds it as a library and loads it by LD_PRELOAD. The file that TRUTHS names gets a line
   for each option: its name with its dashes, a blank, and 0, 1 or 2 for no value, a value or an optional one. */
#define _GNU_SOURCE
#include <argp.h>
#include <dlfcn.h>
#include <getopt.h>
#include <stdio.h>
#include <stdlib.h>
#include <string.h>
#include <unistd.h>

static FILE *truths(void)
{
	static FILE *file;
	const char *path = getenv("TRUTHS"), *program = getenv("TRUTHS_PROGRAM");
	char own[4096] = "";

	/* Programs that this one starts get the variables too. */
	if (!file && path && program && readlink("/proc/self/exe", own, sizeof own - 1) > 0 && !strcmp(own, program))
		file = fopen(path, "w");
	return file;
}

static void write_shorts(const char *shorts)
{
	FILE *file = truths();

	if (!file || !shorts)
		return;
	shorts += strspn(shorts, "+-:");
	for (; *shorts; shorts++) {
		int value = shorts[1] != ':' ? 0 : shorts[2] != ':' ? 1 : 2;

		if (shorts[0] == 'W' && shorts[1] == ';')
			continue;
		if (*shorts != ':')
			fprintf(file, "-%c %d\n", *shorts, value);
	}
	fflush(file);
}

static void write_longs(const struct option *longs)
{
	FILE *file = truths();

	for (; file && longs && longs->name; longs++)
		fprintf(file, "--%s %d\n", longs->name, longs->has_arg);
	if (file)
		fflush(file);
}

static void write_argp(const struct argp *argp, int depth)
{
	FILE *file = truths();
	const struct argp_option *option, *real = NULL;
	const struct argp_child *child;

	if (!file || !argp || depth > 8)
		return;
	for (option = argp->options; option && (option->name || option->key || option->doc || option->group); option++) {
		int value;

		if (!(option->flags & OPTION_ALIAS))
			real = option;
		if (option->flags & OPTION_DOC || !real)
			continue;
		value = !real->arg ? 0 : real->flags & OPTION_ARG_OPTIONAL ? 2 : 1;
		if (option->key > ' ' && option->key < 127)
			fprintf(file, "-%c %d\n", option->key, value);
		if (option->name)
			fprintf(file, "--%s %d\n", option->name, value);
	}
	for (child = argp->children; child && child->argp; child++)
		write_argp(child->argp, depth + 1);
	fflush(file);
}

int getopt(int count, char *const *words, const char *shorts)
{
	static int (*next)(int, char *const *, const char *);
	static const char *last;

	if (!next)
		next = (int (*)(int, char *const *, const char *))dlsym(RTLD_NEXT, "getopt");
	if (shorts != last)
		write_shorts(last = shorts);
	return next(count, words, shorts);
}

typedef int long_form(int, char *const *, const char *, const struct option *, int *);

static int write_and_call(long_form *next, int count, char *const *words, const char *shorts,
                          const struct option *longs, int *index)
{
	static const struct option *last;

	if (longs != last) {
		last = longs;
		write_shorts(shorts);
		write_longs(longs);
	}
	return next(count, words, shorts, longs, index);
}

int getopt_long(int count, char *const *words, const char *shorts, const struct option *longs, int *index)
{
	static long_form *next;

	if (!next)
		next = (long_form *)dlsym(RTLD_NEXT, "getopt_long");
	return write_and_call(next, count, words, shorts, longs, index);
}

int getopt_long_only(int count, char *const *words, const char *shorts, const struct option *longs, int *index)
{
	static long_form *next;

	if (!next)
		next = (long_form *)dlsym(RTLD_NEXT, "getopt_long_only");
	return write_and_call(next, count, words, shorts, longs, index);
}

error_t argp_parse(const struct argp *argp, int count, char **words, unsigned flags, int *index, void *input)
{
	static error_t (*next)(const struct argp *, int, char **, unsigned, int *, void *);

	if (!next)
		next = (error_t (*)(const struct argp *, int, char **, unsigned, int *, void *))dlsym(RTLD_NEXT, "argp_parse");
	write_argp(argp, 0);
	if (truths() && !(flags & ARGP_NO_HELP)) {
		/* argp adds these by itself. */
		fprintf(truths(), "-? 0\n--help 0\n--usage 0\n");
		if (argp_program_version || argp_program_version_hook)
			fprintf(truths(), "-V 0\n--version 0\n");
		fflush(truths());
	}
	return next(argp, count, words, flags, index, input);
}
