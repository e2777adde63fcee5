/* A file that is not written over: for examples that are called with TEXT, or with TEXT and OTHER, the file that they write. Needs
   POSIX. */
#ifndef OTHER_FILE_H
#define OTHER_FILE_H

#include <stdio.h>
#include <sys/stat.h>

/* By whatever name, a link too. A file that is not there yet is another one. */
static int same_file(const char *one, const char *other) {
    struct stat first, second;
    return stat(one, &first) == 0 && stat(other, &second) == 0 && first.st_dev == second.st_dev && first.st_ino == second.st_ino;
}

/* Whether the arguments are TEXT, or TEXT and another file; says if they are not. */
static int text_and_other(int argc, char **argv, const char *usage) {
    if (argc != 2 && argc != 3) {
        fprintf(stderr, "%s\n", usage);
        return 0;
    }
    if (argc == 3 && same_file(argv[1], argv[2])) {
        fprintf(stderr, "%s: would be written over\n", argv[1]);
        return 0;
    }
    return 1;
}

#endif
