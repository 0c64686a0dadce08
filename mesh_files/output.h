/* Files that are written whole or not at all, whatever happens on the way. */
#ifndef OUTPUT_H
#define OUTPUT_H

#include <stdio.h>

/* Writes to the file `name` what `body` writes of `what`. The bytes go into a new file beside it, named .NAME.bridgeyarn-XXXXXX, which takes the
 * name when it is whole and on the disk; until then, and where anything fails, the file that stood there is as it was. The new file is removed
 * where anything fails and where a signal ends the program. A symbolic link is followed to its file. `body` answers 0, or sets errno. */
int write_whole(const char *name, int (*body)(const void *what, FILE *out), const void *what);

#endif
