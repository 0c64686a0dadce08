/* The words of the C programs on their standard streams, and the check that these have arrived. */
#define _XOPEN_SOURCE 700
#include "messages.h"
#include "bridgeyarn.h"
#include <errno.h>
#include <fcntl.h>
#include <getopt.h>
#include <signal.h>
#include <stdarg.h>
#include <stdio.h>
#include <string.h>
#include <strings.h>
#include <time.h>
#include <unistd.h>

/* Whether the terminal's last line says how far the work has come. */
static int has_progress;

static void clear_progress(void)
{
    if (has_progress)
        fputs("\r\033[K", stderr);
    has_progress = 0;
}

void progress(const char *doing, uint64_t done, uint64_t whole)
{
    static time_t start, last;
    time_t now = time(NULL);
    int reason = errno;
    if (start == 0)
        start = now;
    if (done >= whole)
        clear_progress();
    else if (now > start + 1 && now != last && isatty(2)) {
        fprintf(stderr, "\r%s: %s: %lu %%", program, doing, (unsigned long)(100 * done / whole));
        fflush(stderr);
        has_progress = 1;
        last = now;
    }
    errno = reason;
}

/* Where a standard stream is closed, the next file that is opened would take its number, and messages would be written into a mesh. The stream is
 * then one whose use fails. */
static void hold_standard_streams(void)
{
    int number;
    for (number = 0; number < 3; number++)
        if (fcntl(number, F_GETFD) == -1 && errno == EBADF)
            (void)open("/dev/null", number == 0 ? O_WRONLY : O_RDONLY);
}

void begin(void)
{
    hold_standard_streams();
    signal(SIGPIPE, SIG_IGN);
    signal(SIGXFSZ, SIG_IGN);
    /* a message leaves in one piece, also where two programs share the stream */
    setvbuf(stderr, NULL, _IOLBF, 8192);
}

int finish(int status)
{
    int failed = ferror(stdout);
    errno = 0;
    if (fclose(stdout) != 0 || failed)
        status = tell(SYSTEM, "cannot write to standard output: %s", errno != 0 ? strerror(errno) : "an earlier write has failed");
    failed = ferror(stderr);
    return fclose(stderr) != 0 || failed ? SYSTEM : status;
}

int take_options(int count, char **words, int *allow_empty)
{
    struct option known[] = { { "help", no_argument, NULL, 'h' }, { "version", no_argument, NULL, 'v' }, { "allow-empty", no_argument, NULL, 'e' },
                              { NULL, 0, NULL, 0 } };
    int option;
    if (allow_empty == NULL)
        known[2].name = NULL;
    while ((option = getopt_long(count, words, "", known, NULL)) != -1)
        switch (option) {
        case 'h':
            fputs(help, stdout);
            return DONE;
        case 'v':
            printf("%s: bridgeyarn %s\n", program, BRIDGEYARN_VERSION);
            return DONE;
        case 'e':
            *allow_empty = 1;
            break;
        default:
            return misused("a name that begins with a dash comes after --");
        }
    return -1;
}

static void say(const char *format, va_list arguments)
{
    vfprintf(stderr, format, arguments);
    fputs("\n", stderr);
}

int tell(int status, const char *format, ...)
{
    va_list arguments;
    clear_progress();
    fprintf(stderr, "%s: ", program);
    va_start(arguments, format);
    say(format, arguments);
    va_end(arguments);
    return status;
}

int misused(const char *format, ...)
{
    va_list arguments;
    fprintf(stderr, "%s: ", program);
    va_start(arguments, format);
    say(format, arguments);
    va_end(arguments);
    return tell(USAGE, "see %s --help", program);
}

int cannot(const char *verb, const char *name)
{
    return tell(SYSTEM, "cannot %s %s: %s", verb, shown(name), strerror(errno));
}

int refused(uint32_t cause, uint64_t place, const char *format, ...)
{
    va_list arguments;
    clear_progress();
    fprintf(stderr, "%s: refused %u at %lu: ", program, cause, (unsigned long)place);
    va_start(arguments, format);
    say(format, arguments);
    va_end(arguments);
    return REFUSED;
}

const char *shown(const char *name)
{
    static char text[4096];
    size_t i;
    for (i = 0; i + 1 < sizeof text && name[i] != '\0'; i++)
        text[i] = (unsigned char)name[i] < 32 || name[i] == 127 ? '?' : name[i];
    text[i] = '\0';
    return text;
}

const char *grouped(uint64_t number, char text[GROUPED])
{
    int at = GROUPED - 1, digits = 0;
    text[at] = '\0';
    do {
        if (digits > 0 && digits % 3 == 0)
            text[--at] = ',';
        text[--at] = (char)('0' + number % 10);
        number /= 10;
        digits++;
    } while (number > 0);
    return text + at;
}

int ends_in(const char *name, const char *ending)
{
    size_t whole = strlen(name), last = strlen(ending);
    return whole > last && strcasecmp(name + (whole - last), ending) == 0;
}
