/* Files written whole: a new file of a name that no other run has, in the folder of the output; flushed, synced and renamed; the folder synced. */
#define _XOPEN_SOURCE 700
#include "output.h"
#include "messages.h"
#include <errno.h>
#include <fcntl.h>
#include <signal.h>
#include <stdlib.h>
#include <string.h>
#include <sys/stat.h>
#include <unistd.h>

/* A path that is longer is refused by the system. */
enum { LONGEST_PATH = 4095, MOST_LINKS = 40 };

typedef struct {
    char *path;    /* the file itself, links followed */
    char *folder;
    char *part;    /* the new file until it is whole  */
    int replaces;  /* whether there is a file already */
    struct stat old;
} output;

/* ---- signals */

static const int ending_signals[] = { SIGHUP, SIGINT, SIGQUIT, SIGTERM };
enum { ENDING_SIGNALS = sizeof ending_signals / sizeof ending_signals[0] };

/* The new file that a signal removes. It is changed only while these signals are held back. */
static const char *volatile unfinished;

/* The signal's own action is in place again by now, and ends the program when this returns. */
static void remove_and_end(int number)
{
    if (unfinished != NULL)
        unlink(unfinished);
    raise(number);
}

static sigset_t the_ending_signals(void)
{
    sigset_t all;
    int i;
    sigemptyset(&all);
    for (i = 0; i < ENDING_SIGNALS; i++)
        sigaddset(&all, ending_signals[i]);
    return all;
}

/* A signal that is ignored stays so: that is how nohup works. */
static void watch_signals(void)
{
    struct sigaction now, removing;
    int i;
    memset(&removing, 0, sizeof removing);
    removing.sa_handler = remove_and_end;
    removing.sa_mask = the_ending_signals();
    removing.sa_flags = SA_RESETHAND;
    for (i = 0; i < ENDING_SIGNALS; i++)
        if (sigaction(ending_signals[i], NULL, &now) == 0 && now.sa_handler == SIG_DFL)
            sigaction(ending_signals[i], &removing, NULL);
}

static sigset_t hold_signals(void)
{
    sigset_t all = the_ending_signals(), before;
    sigprocmask(SIG_BLOCK, &all, &before);
    return before;
}

static void let_signals(sigset_t before)
{
    sigprocmask(SIG_SETMASK, &before, NULL);
}

/* ---- names */

/* How many bytes of a path are its folder, the last slash with them. */
static size_t folder_length(const char *path)
{
    const char *slash = strrchr(path, '/');
    return slash == NULL ? 0 : (size_t)(slash - path) + 1;
}

/* The first bytes of `folder` and the first bytes of `leaf`, as one name in memory that the caller frees. */
static char *joined(const char *folder, size_t folder_bytes, const char *leaf, size_t leaf_bytes)
{
    char *name = malloc(folder_bytes + leaf_bytes + 1);
    if (name != NULL) {
        memcpy(name, folder, folder_bytes);
        memcpy(name + folder_bytes, leaf, leaf_bytes);
        name[folder_bytes + leaf_bytes] = '\0';
    }
    return name;
}

static char *link_target(const char *path)
{
    char target[LONGEST_PATH + 1];
    ssize_t length = readlink(path, target, sizeof target);
    if (length < 0)
        return NULL;
    if ((size_t)length == sizeof target) {
        errno = ENAMETOOLONG;
        return NULL;
    }
    return joined(path, length > 0 && target[0] == '/' ? 0 : folder_length(path), target, (size_t)length);
}

/* The file that a name leads to, which need not be there yet. */
static char *links_followed(const char *name)
{
    char *path = joined(name, strlen(name), "", 0), *next;
    struct stat at;
    int links = 0;
    while (path != NULL && lstat(path, &at) == 0 && S_ISLNK(at.st_mode)) {
        errno = ELOOP;
        next = links++ < MOST_LINKS ? link_target(path) : NULL;
        free(path);
        path = next;
    }
    return path;
}

/* The pattern of the new file's name, for mkstemp. Where it would be too long for a name or a path, that of the output is shortened, though not
 * within a letter of UTF-8. */
static char *part_beside(const char *path, const char *folder_name)
{
    static const char ending[] = ".bridgeyarn-XXXXXX";
    long longest_name = pathconf(folder_name, _PC_NAME_MAX);
    size_t folder = folder_length(path), leaf = strlen(path + folder), most = longest_name > 0 ? (size_t)longest_name : 255, bytes;
    char *name;
    if (folder + most > LONGEST_PATH)
        most = LONGEST_PATH > folder ? LONGEST_PATH - folder : 0;
    most = most > sizeof ending ? most - sizeof ending : 0;
    if (leaf > most)
        for (leaf = most; leaf > 0 && ((unsigned char)path[folder + leaf] & 0xC0) == 0x80;)
            leaf--;
    bytes = folder + 1 + leaf + sizeof ending;
    name = malloc(bytes);
    if (name != NULL)
        snprintf(name, bytes, "%.*s.%.*s%s", (int)folder, path, (int)leaf, path + folder, ending);
    return name;
}

/* ---- steps; each answers 0, or -1 with errno */

/* The system is asked first: it follows no link that somebody else has put into a folder that everybody may write. */
static int find_place(output *o, const char *name)
{
    size_t folder;
    if (stat(name, &o->old) != 0 && errno != ENOENT)
        return -1;
    o->path = links_followed(name);
    if (o->path == NULL)
        return -1;
    folder = folder_length(o->path);
    o->folder = folder == 0 ? joined(".", 1, "", 0) : joined(o->path, folder, "", 0);
    if (o->folder == NULL)
        return -1;
    o->replaces = stat(o->path, &o->old) == 0;
    if (!o->replaces && errno != ENOENT)
        return -1;
    /* a file that its user has made read-only is not replaced, although its folder would allow it */
    if (o->replaces && S_ISREG(o->old.st_mode) && access(o->path, W_OK) != 0)
        return -1;
    o->part = part_beside(o->path, o->folder);
    return o->part == NULL ? -1 : 0;
}

/* mkstemp makes a file that was not there, follows no link, and lets nobody else read it. */
static FILE *create_part(output *o)
{
    static char buffer[1 << 16];
    sigset_t before = hold_signals();
    int file = mkstemp(o->part);
    FILE *stream;
    if (file >= 0)
        unfinished = o->part;
    let_signals(before);
    stream = file < 0 ? NULL : fdopen(file, "wb");
    if (file >= 0 && stream == NULL)
        close(file);
    if (stream != NULL)
        setvbuf(stream, buffer, _IOFBF, sizeof buffer);
    return stream;
}

static void remove_part(void)
{
    sigset_t before = hold_signals();
    int reason = errno;
    if (unfinished != NULL)
        unlink(unfinished);
    unfinished = NULL;
    errno = reason;
    let_signals(before);
}

/* The rights of the file that is replaced, or those that the user gives to new files. Where the group cannot be kept, the new one may do no more
 * than everybody. A file system without rights of its own (that of most memory sticks) refuses to change them, and what it has is kept. */
static int give_rights(const output *o, int file)
{
    struct stat new;
    mode_t mode, mask = umask(0);
    umask(mask);
    if (fstat(file, &new) != 0)
        return -1;
    mode = o->replaces ? o->old.st_mode & 0777 : 0666 & ~mask;
    if (o->replaces && (new.st_uid != o->old.st_uid || new.st_gid != o->old.st_gid))
        if (fchown(file, o->old.st_uid, o->old.st_gid) != 0 && fchown(file, (uid_t)-1, o->old.st_gid) != 0)
            mode = (mode & 0707) | (mode & 07) << 3;
    return fchmod(file, mode) != 0 && errno != EPERM ? -1 : 0;
}

/* Some file systems have nothing to sync, and say so. */
static int sync_file(int file)
{
    return fsync(file) != 0 && errno != EINVAL ? -1 : 0;
}

static int fill_part(const output *o, FILE *part, int (*body)(const void *what, FILE *out), const void *what)
{
    int failed = body(what, part) != 0 || ferror(part) || fflush(part) != 0 || give_rights(o, fileno(part)) != 0 || sync_file(fileno(part)) != 0;
    int reason = errno;
    progress("writing", 1, 1);
    if (fclose(part) != 0 && !failed) {
        failed = 1;
        reason = errno;
    }
    errno = reason;
    return failed ? -1 : 0;
}

static int rename_part(const output *o)
{
    sigset_t before = hold_signals();
    int failed = rename(o->part, o->path), reason = errno;
    if (!failed)
        unfinished = NULL;
    errno = reason;
    let_signals(before);
    return failed;
}

/* A folder that may be written and not read cannot be synced by itself, so that everything is. */
static int sync_folder(const output *o)
{
    int folder = open(o->folder, O_RDONLY | O_DIRECTORY), failed, reason;
    if (folder < 0) {
        sync();
        return 0;
    }
    failed = sync_file(folder);
    reason = errno;
    close(folder);
    errno = reason;
    return failed;
}

static int wrong_kind(const char *name, mode_t mode)
{
    const char *kind = S_ISDIR(mode) ? "a folder" : S_ISFIFO(mode) ? "a named pipe" : "a device or a socket";
    return tell(SYSTEM, "cannot write %s: it is %s, and a regular file is wanted", shown(name), kind);
}

static int write_output(output *o, const char *name, int (*body)(const void *what, FILE *out), const void *what)
{
    FILE *part;
    if (find_place(o, name) != 0)
        return cannot("write", name);
    if (o->replaces && !S_ISREG(o->old.st_mode))
        return wrong_kind(name, o->old.st_mode);
    part = create_part(o);
    if (part == NULL || fill_part(o, part, body, what) != 0 || rename_part(o) != 0) {
        remove_part();
        return cannot("write", name);
    }
    return sync_folder(o) == 0 ? DONE : tell(SYSTEM, "%s is written, but its folder could not be synced: %s", shown(name), strerror(errno));
}

int write_whole(const char *name, int (*body)(const void *what, FILE *out), const void *what)
{
    output o;
    int status;
    memset(&o, 0, sizeof o);
    watch_signals();
    status = write_output(&o, name, body, what);
    free(o.path);
    free(o.folder);
    free(o.part);
    return status;
}
