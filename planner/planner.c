/* The planner: reads a sample record, extracts its surface, and writes the mesh. What it takes, says and leaves is in the text of --help, below. */
#include "bridgeyarn.h"
#include "formats.h"
#include "input.h"
#include "messages.h"
#include "output.h"
#include "records.h"
#include <errno.h>
#include <getopt.h>
#include <stdlib.h>
#include <string.h>
#include <time.h>

const char program[] = "planner";
const char help[] =
    "usage: planner [--allow-empty] RECORD MESH\n"
    "Reads the sample record RECORD (- is standard input), extracts its surface and writes it to MESH.\n"
    "MESH ends in .mesh (a mesh record, for the workshop) or in .obj (a Wavefront OBJ file).\n"
    "\n"
    "  --allow-empty  writes a mesh without a triangle too, where no sample is inside or every sample is\n"
    "  --help         prints this\n"
    "  --version      prints the version\n"
    "  --             ends the options, so that a name may begin with a dash\n"
    "\n"
    "Exit status: 0 the mesh is written; 1 the record is refused; 2 wrong usage; 3 a file or memory could not be had,\n"
    "or a message not be written; 4 the surface is empty. After 1, 2 and 4 a MESH that was there is as it was; after 3\n"
    "it is as it was, or the whole new mesh where only a message is missing. Records are described in bridgeyarn.h.\n";

/* What the planner holds from the record to the mesh. */
typedef struct {
    input in;
    sample_grid grid;
    uint32_t *work;
    mesh mesh;
    double milliseconds;
} job;

static bridgeyarn_answer extract(job *j, size_t vertex_room, size_t index_room)
{
    return bridgeyarn_extract(j->grid.size, j->grid.numbering, j->grid.samples, j->grid.sample_count, j->work, BRIDGEYARN_WORK(j->grid.size),
                              j->mesh.coordinates, vertex_room, j->mesh.indices, index_room);
}

static int refuse_grid(const job *j, bridgeyarn_answer answer)
{
    uint64_t n = j->grid.size, p = answer.place;
    float sample;
    if (answer.cause != BRIDGEYARN_BAD_SAMPLE)
        return refused(answer.cause, p, "the library has refused what the planner made; this is a fault of the planner");
    sample = j->grid.samples[p];
    if (sample - sample == 0.0f)
        return refused(answer.cause, p, "the sample at x %lu, y %lu, z %lu (place %lu) is %.9g; its magnitude may be 2^126 at most", (unsigned long)(p % n),
                       (unsigned long)(p / n % n), (unsigned long)(p / n / n), (unsigned long)p, sample);
    return refused(answer.cause, p, "the sample at x %lu, y %lu, z %lu (place %lu) is not finite", (unsigned long)(p % n), (unsigned long)(p / n % n),
                   (unsigned long)(p / n / n), (unsigned long)p);
}

/* Asks for the room with none, makes it, and asks again. */
static int make_mesh(job *j)
{
    clock_t start = clock();
    bridgeyarn_answer room, answer;
    j->work = malloc(BRIDGEYARN_WORK(j->grid.size) * sizeof *j->work);
    if (j->work == NULL)
        return cannot("extract", j->in.name);
    room = extract(j, 0, 0);
    if (room.cause != BRIDGEYARN_DONE && room.cause != BRIDGEYARN_SHORT_VERTICES && room.cause != BRIDGEYARN_SHORT_INDICES)
        return refuse_grid(j, room);
    j->mesh.coordinates = malloc(3 * room.vertices * sizeof *j->mesh.coordinates + 1);
    j->mesh.indices = malloc(room.indices * sizeof *j->mesh.indices + 1);
    if (j->mesh.coordinates == NULL || j->mesh.indices == NULL)
        return cannot("hold the mesh of", j->in.name);
    answer = extract(j, 3 * room.vertices, room.indices);
    j->milliseconds = (double)(clock() - start) * 1000.0 / CLOCKS_PER_SEC;
    if (answer.cause != BRIDGEYARN_DONE)
        return refuse_grid(j, answer);
    j->mesh.size = j->grid.size;
    j->mesh.numbering = j->grid.numbering;
    j->mesh.vertex_count = answer.vertices;
    j->mesh.index_count = answer.indices;
    return DONE;
}

/* Any cell whose samples are not all on one side has a triangle, and the cells of a grid hang together: without one, all samples are on one side. */
static int refuse_empty(const job *j, const char *name)
{
    return tell(EMPTY, "the surface is empty: %s sample is inside (0.0 or below); %s is left as it was (--allow-empty writes it)",
                j->grid.samples[0] <= 0.0f ? "every" : "no", shown(name));
}

static bridgeyarn_write_answer lay_record(const mesh *m, uint8_t *record, size_t room)
{
    return bridgeyarn_mesh_write(BRIDGEYARN_MESH_VERSION, m->size, m->numbering, m->coordinates, 3 * m->vertex_count, m->indices, m->index_count, record, room);
}

/* A body for write_whole: the mesh record, once more by asking for the room first. A mesh that the library made has a record. */
static int write_record(const void *what, FILE *out)
{
    bridgeyarn_write_answer answer = lay_record(what, NULL, 0);
    uint8_t *record = malloc(answer.bytes + 1);
    int failed = record == NULL;
    if (!failed) {
        answer = lay_record(what, record, answer.bytes);
        errno = EINVAL;
        failed = answer.cause != BRIDGEYARN_DONE || fwrite(record, 1, answer.bytes, out) != answer.bytes;
    }
    free(record);
    return failed;
}

static int plan(job *j, const char *record, const char *name, int allow_empty)
{
    int status = open_input(record, &j->in);
    if (status == DONE && is_same_file(&j->in, name))
        status = misused("%s is the record itself, which would be lost", shown(name));
    if (status == DONE)
        status = take_samples(&j->in, &j->grid);
    if (status == DONE)
        status = make_mesh(j);
    if (status == DONE && j->mesh.index_count == 0 && !allow_empty)
        status = refuse_empty(j, name);
    if (status == DONE)
        status = write_whole(name, ends_in(name, ".obj") ? write_obj : write_record, &j->mesh);
    if (status == DONE)
        printf("planner: size %u, %s numbering: V = %lu, I = %lu, extracted in %.1f ms, written to %s\n", j->mesh.size,
               numbering_word(j->mesh.numbering), (unsigned long)j->mesh.vertex_count, (unsigned long)j->mesh.index_count, j->milliseconds, shown(name));
    return status;
}

int main(int count, char **words)
{
    job j;
    int allow_empty = 0, status;
    begin();
    status = take_options(count, words, &allow_empty);
    if (status >= 0)
        return finish(status);
    if (count - optind != 2)
        return finish(misused("RECORD and MESH are wanted, and %d names are there", count - optind));
    if (!ends_in(words[optind + 1], ".mesh") && !ends_in(words[optind + 1], ".obj"))
        return finish(misused("the ending of %s is not .mesh or .obj", shown(words[optind + 1])));
    memset(&j, 0, sizeof j);
    status = plan(&j, words[optind], words[optind + 1], allow_empty);
    close_input(&j.in);
    free(j.work);
    free_mesh(&j.mesh);
    return finish(status);
}
