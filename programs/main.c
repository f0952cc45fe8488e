/* twineherald: the desk's own program over the library.
 *
 *   twineherald check FILE..    says in words what is found in each file
 *   twineherald page FILE       writes the file as a page for a browser
 *   twineherald rewrite FILE    writes the file in plain service characters
 */
#include <errno.h>
#include <signal.h>
#include <stdio.h>
#include <stdlib.h>
#include <string.h>

#include "commands.h"

static const char usage[] = "usage: twineherald check FILE..\n"
                            "       twineherald page FILE\n"
                            "       twineherald rewrite FILE\n"
                            "       twineherald --help | --version\n"
                            "A FILE of - is standard input. Status: 0 everything was accepted (rewrite: the file was\n"
                            "rewritten), 1 something was refused, 2 the program was called wrongly, or a file was not\n"
                            "read or an answer not written.\n";

static const char version[] =
#include "version.inc"
    ;

static int wrong_call(void)
{
    fprintf(stderr, "%s", usage);
    return TROUBLE;
}

/* The status of a file by that task. */
static int run(const char *path, int (*task)(const char *path, slice file))
{
    slice file;

    if (!read_file(path, &file))
        return TROUBLE;
    int status = task(path, file);
    free((void *)file.first);
    return status;
}

static int check(int count, char **paths)
{
    int worst = ALL_ACCEPTED;

    for (int k = 0; k < count; k++) {
        int status = run(paths[k], check_file);
        if (status == TROUBLE)
            count_unread();
        if (status > worst)
            worst = status;
    }
    say_summary();
    return worst;
}

/* Does what the command asks for. */
static int obey(const char *command, int count, char **paths)
{
    if (strcmp(command, "check") == 0 && count > 0)
        return check(count, paths);
    if (strcmp(command, "page") == 0 && count == 1)
        return run(paths[0], page_file);
    if (strcmp(command, "rewrite") == 0 && count == 1)
        return run(paths[0], rewrite_file);
    return wrong_call();
}

/* The status, once everything is written; a write that failed is said and is trouble. */
static int finish(int status)
{
    errno = 0;
    if (!ferror(stdout) && fflush(stdout) == 0)
        return status;
    fprintf(stderr, "twineherald: cannot write the answer%s%s\n", errno != 0 ? ": " : "", errno != 0 ? strerror(errno) : "");
    return TROUBLE;
}

int main(int argc, char **argv)
{
    int first = 2;

#ifdef SIGPIPE
    /* an answer that nobody reads any more is a write that fails, and is said */
    signal(SIGPIPE, SIG_IGN);
#endif
    if (argc == 2 && strcmp(argv[1], "--help") == 0) {
        printf("%s", usage);
        return finish(ALL_ACCEPTED);
    }
    if (argc == 2 && strcmp(argv[1], "--version") == 0) {
        printf("twineherald %s\n", version);
        return finish(ALL_ACCEPTED);
    }
    if (argc < 3)
        return wrong_call();
    if (strcmp(argv[2], "--") == 0)
        first = 3;
    else if (strncmp(argv[2], "--", 2) == 0)
        return wrong_call();
    return finish(obey(argv[1], argc - first, argv + first));
}
