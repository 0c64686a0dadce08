/* The workshop's program: reads a mesh record, says what it holds, and writes it for other programs. What it takes, says and leaves is in the text
 * of --help, below. */
#include "bridgeyarn.h"
#include "formats.h"
#include "input.h"
#include "messages.h"
#include "output.h"
#include "picture.h"
#include "records.h"
#include <getopt.h>
#include <string.h>

const char program[] = "workshop";
const char help[] =
    "usage: workshop [--allow-empty] MESH [OUT..]\n"
    "Reads the mesh record MESH (- is standard input), says what it holds, and writes it to each OUT in the form that its\n"
    "ending names: .stl (binary STL), .obj (Wavefront OBJ), .ply (binary PLY) or .svg (a picture that any browser shows).\n"
    "\n"
    "  --allow-empty  writes a mesh without a triangle too\n"
    "  --help         prints this\n"
    "  --version      prints the version\n"
    "  --             ends the options, so that a name may begin with a dash\n"
    "\n"
    "Exit status: 0 done; 1 the record is refused; 2 wrong usage; 3 a file or memory could not be had, or a message not be\n"
    "written; 4 the mesh is empty and there is an OUT. After 1, 2 and 4 every OUT is as it was; after 3 each is as it was,\n"
    "or whole and new, as was said. Records are described in bridgeyarn.h.\n";

typedef int (*writer)(const void *what, FILE *out);

static writer writer_of(const char *name)
{
    if (ends_in(name, ".stl"))
        return write_stl;
    if (ends_in(name, ".obj"))
        return write_obj;
    if (ends_in(name, ".ply"))
        return write_ply;
    return ends_in(name, ".svg") ? write_svg : NULL;
}

static void show_axis(const mesh *m, int axis)
{
    float low = m->coordinates[axis], high = low, v;
    uint64_t i;
    for (i = 1; i < m->vertex_count; i++) {
        v = m->coordinates[3 * i + (uint64_t)axis];
        if (v < low)
            low = v;
        if (v > high)
            high = v;
    }
    printf(" %c %.9g to %.9g%s", "xyz"[axis], low, high, axis < 2 ? "," : "\n");
}

static void show(const char *name, const mesh *m)
{
    int axis;
    printf("workshop: %s: size %u, %s numbering: V = %lu, I = %lu, %lu triangles\n", shown(name), m->size, numbering_word(m->numbering),
           (unsigned long)m->vertex_count, (unsigned long)m->index_count, (unsigned long)m->index_count / 3);
    if (m->vertex_count == 0) {
        printf("workshop: no vertex, so no bounding box\n");
        return;
    }
    printf("workshop: bounding box:");
    for (axis = 0; axis < 3; axis++)
        show_axis(m, axis);
}

static int judge_names(const input *in, int count, char **names)
{
    int i;
    for (i = 0; i < count; i++)
        if (is_same_file(in, names[i]))
            return misused("%s is the record itself, which would be lost", shown(names[i]));
    return DONE;
}

static int work(input *in, mesh *m, const char *record, int count, char **names, int allow_empty)
{
    int i, status = open_input(record, in);
    if (status == DONE)
        status = judge_names(in, count, names);
    if (status == DONE)
        status = take_mesh(in, m);
    if (status == DONE)
        show(in->name, m);
    if (status == DONE && count > 0 && m->index_count == 0 && !allow_empty)
        status = tell(EMPTY, "the mesh is empty; nothing is written (--allow-empty writes it)");
    for (i = 0; i < count && status == DONE; i++) {
        status = write_whole(names[i], writer_of(names[i]), m);
        if (status == DONE)
            printf("workshop: written to %s\n", shown(names[i]));
    }
    return status;
}

int main(int count, char **words)
{
    input in;
    mesh m;
    int i, allow_empty = 0, status;
    begin();
    status = take_options(count, words, &allow_empty);
    if (status >= 0)
        return finish(status);
    if (count - optind < 1)
        return finish(misused("MESH is wanted, and no name is there"));
    for (i = optind + 1; i < count; i++)
        if (writer_of(words[i]) == NULL)
            return finish(misused("the ending of %s is not .stl, .obj, .ply or .svg", shown(words[i])));
    memset(&in, 0, sizeof in);
    memset(&m, 0, sizeof m);
    status = work(&in, &m, words[optind], count - optind - 1, words + optind + 1, allow_empty);
    close_input(&in);
    free_mesh(&m);
    return finish(status);
}
