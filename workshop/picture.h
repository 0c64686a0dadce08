/* A mesh as an SVG picture. */
#ifndef PICTURE_H
#define PICTURE_H

#include <stdio.h>

/* A body for write_whole; `what` is a mesh. */
int write_svg(const void *what, FILE *out);

#endif
