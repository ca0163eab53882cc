/* sja_pipe.c: the calls of sja.h over a process of its own. It starts `sja live`, and each call is a line to it and a
 * line back. What a driver does to its own memory does nothing to the session, and a session can be started beside any
 * program. For Linux and other POSIX systems.
 *
 * The environment variable SJA names the program; without it it is `sja` on the path. A `./sja` of which nothing is
 * proved yet builds a program with checks first, which takes a minute or more. What the process of the first session
 * says on standard error is said on that of this program, if it is open: also that nothing is proved. What later ones
 * and runs say there goes nowhere. Where a process is refused memory it ends, and each call answers SJA_NO_MEMORY from
 * then on; if a check stops it, SJA_STOPPED. Where SIGPIPE has no handler sja_new has it ignored, so that a session's
 * end is told by SJA_BROKEN and doesn't end the program. SIGCHLD may be ignored: then a shell starts the program, and
 * says how it ended. A text that is null is one without room, and a plan that is null is none.
 */
#define _POSIX_C_SOURCE 200809L

#include "sja.h"

#include <errno.h>
#include <fcntl.h>
#include <inttypes.h>
#include <signal.h>
#include <stdio.h>
#include <stdlib.h>
#include <string.h>
#include <sys/stat.h>
#include <sys/types.h>
#include <sys/wait.h>
#include <unistd.h>

/* A line has at most 64 bytes each way, but for those of a plan. A number has at most seven digits, but for the bit of
 * a strike. */
enum { LINE = 128, BYTES = 4096, GREATEST = 9999999 };

/* How many bits a session without an end has. */
static const uint64_t WITHOUT_END = UINT64_C(1) << 62;

/* A text that is read to its end. */
struct text {
    char *bytes;
    size_t length;
    size_t room;
};

/* A process, and the ends of pipes to it and from it. How it ended is told at `told`, where that isn't below 0. */
struct process {
    pid_t number;
    int to;
    int from;
    int told;
    ino_t first, second;    /* the pipes, by which an end is known again */
};

struct sja {
    struct process process;
    char held[BYTES];       /* what was read and isn't used yet */
    size_t first;
    size_t count;
    uint32_t bits;          /* none of a session without an end */
    uint32_t nodes;
    uint32_t lost;          /* what is answered where the process answers no more */
    int ended;
    uint32_t plan_status;
    uint32_t report_status;
    struct text plan;
    struct text report;
};

static sja_answer answer(uint32_t status, uint64_t value)
{
    return (sja_answer){ .status = status, .value = value };
}

static uint32_t at_most(uint32_t number, uint32_t most)
{
    return number < most ? number : most;
}

/* ---- the process */

static void ignore_broken_pipes(void)
{
    struct sigaction action;

    if (sigaction(SIGPIPE, NULL, &action) == 0 && !(action.sa_flags & SA_SIGINFO) && action.sa_handler == SIG_DFL) {
        action.sa_handler = SIG_IGN;
        sigaction(SIGPIPE, &action, NULL);
    }
}

/* A pipe whose two ends are 3 or above, so that none is in the place of an input or output that the program has closed.
 * Neither goes to another process. Whether it was made. */
static int far_pipe(int ends[2])
{
    int near[2], made;

    if (pipe(near) != 0)
        return 0;
    ends[0] = fcntl(near[0], F_DUPFD_CLOEXEC, 3);
    ends[1] = fcntl(near[1], F_DUPFD_CLOEXEC, 3);
    close(near[0]);
    close(near[1]);
    made = ends[0] >= 0 && ends[1] >= 0;
    for (int i = 0; i < 2 && !made; i++)
        if (ends[i] >= 0)
            close(ends[i]);
    return made;
}

/* Whether the kernel keeps no status of a process of this program that ends. */
static int is_status_dropped(void)
{
    struct sigaction action;

    return sigaction(SIGCHLD, NULL, &action) == 0
        && ((action.sa_flags & SA_NOCLDWAIT) || (!(action.sa_flags & SA_SIGINFO) && action.sa_handler == SIG_IGN));
}

/* Becomes a program with one word, at these two ends of pipes; where `told` isn't below 0 a shell that runs it, and
 * says its status there. What it says of errors goes nowhere, if it isn't to be said: that is put in its place first,
 * since it may have been opened in the place of one of the others. */
static void become(const char *program, const char *word, int input, int output, int told, int is_said)
{
    int none = open("/dev/null", O_WRONLY);

    signal(SIGCHLD, SIG_DFL);
    if (!is_said || fcntl(2, F_GETFD) < 0 || none == 2)
        dup2(none, 2);
    dup2(input, 0);
    dup2(output, 1);
    if (none > 2)
        close(none);
    if (told < 0) {
        execlp(program, "sja", word, (char *)NULL);
    } else if (dup2(told, 3) == 3) {
        fcntl(3, F_SETFD, 0);
        execl("/bin/sh", "sh", "-c", "\"$0\" \"$1\" 3>&-; echo $? >&3", program, word, (char *)NULL);
    }
    _exit(127);
}

static void close_both(const int ends[2])
{
    for (int i = 0; i < 2; i++)
        if (ends[i] >= 0)
            close(ends[i]);
}

/* Three pipes: to the program, from it, and for its status where the kernel drops it. Whether they were made. */
static int make_pipes(int in[2], int out[2], int status[2])
{
    in[0] = in[1] = out[0] = out[1] = status[0] = status[1] = -1;
    if (far_pipe(in) && far_pipe(out) && (!is_status_dropped() || far_pipe(status)))
        return 1;
    close_both(in);
    close_both(out);
    return 0;
}

/* Which pipe an end is of, or 0 where it is none. */
static ino_t pipe_of(int end)
{
    struct stat of;

    return end >= 0 && fstat(end, &of) == 0 && S_ISFIFO(of.st_mode) ? of.st_ino : 0;
}

/* Starts the program with one word, its input and output at pipes. Whether that was done. */
static int start(const char *word, struct process *process)
{
    static int is_first = 1;
    const char *named = getenv("SJA");
    int in[2], out[2], status[2], is_said = is_first && strcmp(word, "live") == 0;

    ignore_broken_pipes();
    if (!make_pipes(in, out, status))
        return 0;
    process->number = fork();
    if (process->number == 0)
        become(named != NULL ? named : "sja", word, in[0], out[1], status[1], is_said);
    is_first = is_first && !is_said;
    close(in[0]);
    close(out[1]);
    if (status[1] >= 0)
        close(status[1]);
    process->to = in[1];
    process->from = out[0];
    process->told = status[0];
    process->first = pipe_of(in[1]);
    process->second = pipe_of(out[0]);
    if (process->number > 0)
        return 1;
    close(in[1]);
    close(out[0]);
    if (status[0] >= 0)
        close(status[0]);
    return 0;
}

/* Whether both ends are still those of the process: the program may have closed them, and have opened others there. */
static int is_whole(const struct process *process)
{
    return pipe_of(process->to) == process->first && pipe_of(process->from) == process->second;
}

/* Closes the ends that are still those of the process. */
static void close_ends(struct process *process)
{
    if (process->to >= 0 && pipe_of(process->to) == process->first)
        close(process->to);
    if (process->from >= 0 && pipe_of(process->from) == process->second)
        close(process->from);
    process->to = process->from = -1;
}

/* The status that the shell says, or -1 where it said none. */
static int told_status(int told)
{
    char said[16];
    size_t length = 0;
    ssize_t count;

    do {
        count = read(told, said + length, sizeof said - 1 - length);
        if (count > 0)
            length += (size_t)count;
    } while ((count > 0 && length < sizeof said - 1) || (count < 0 && errno == EINTR));
    close(told);
    said[length] = '\0';
    return length > 0 ? atoi(said) : -1;
}

/* Waits for the end of a process. Its status, as a shell has it, or -1 where it has none. */
static int finished(struct process *process)
{
    int status, told = process->told >= 0 ? told_status(process->told) : -1;

    process->told = -1;
    while (waitpid(process->number, &status, 0) < 0)
        if (errno != EINTR)
            return told;
    if (told >= 0)
        return told;
    return WIFEXITED(status) ? WEXITSTATUS(status) : WIFSIGNALED(status) ? 128 + WTERMSIG(status) : -1;
}

/* What is answered of a process that ended with this status before it had answered. */
static uint32_t broken(int status)
{
    return status == 128 + SIGILL ? SJA_STOPPED : SJA_BROKEN;
}

static int write_all(int to, const char *bytes, size_t length)
{
    while (length > 0) {
        ssize_t written = write(to, bytes, length);

        if (written < 0 && errno == EINTR)
            continue;
        if (written <= 0)
            return 0;
        bytes += written;
        length -= (size_t)written;
    }
    return 1;
}

/* ---- texts */

static int text_add(struct text *text, const char *bytes, size_t length)
{
    if (text->room - text->length <= length) {
        size_t room = 2 * (text->length + length) + BYTES;
        char *grown = realloc(text->bytes, room);

        if (grown == NULL)
            return 0;
        text->bytes = grown;
        text->room = room;
    }
    memcpy(text->bytes + text->length, bytes, length);
    text->length += length;
    return 1;
}

static void text_free(struct text *text)
{
    free(text->bytes);
    *text = (struct text){ 0 };
}

/* Puts a text into the caller's, with a NUL at its end. */
static sja_answer text_put(const struct text *text, char *into, size_t size)
{
    if (text->length >= size)
        return answer(SJA_NO_ROOM, text->length + 1);
    if (text->length > 0)
        memcpy(into, text->bytes, text->length);
    into[text->length] = '\0';
    return answer(SJA_DONE, text->length);
}

/* ---- lines */

/* The process has closed an end, so it ends, and it's kept why: `sja live` has status 1 where it was refused memory and
 * answers no more. Gives 0. */
static int hung_up(sja *session)
{
    if (session->process.to >= 0) {
        int whole = is_whole(&session->process), status;

        close_ends(&session->process);
        status = finished(&session->process);
        session->lost = !whole ? SJA_BROKEN : status == 1 ? SJA_NO_MEMORY : broken(status);
    }
    return 0;
}

/* Says a line. Whether that was done. */
static int say(sja *session, const char *said)
{
    return (is_whole(&session->process) && write_all(session->process.to, said, strlen(said))) || hung_up(session);
}

/* Has at least one byte at hand. Whether there is one. */
static int fill(sja *session)
{
    ssize_t count;

    if (session->count > 0)
        return 1;
    do
        count = read(session->process.from, session->held, BYTES);
    while (count < 0 && errno == EINTR);
    if (count <= 0)
        return hung_up(session);
    session->first = 0;
    session->count = (size_t)count;
    return 1;
}

/* Takes bytes up to the end of a line, or all that are at hand. How many, and where they are. */
static size_t take(sja *session, const char **bytes, int *whole)
{
    size_t length = 0;

    *bytes = session->held + session->first;
    *whole = 0;
    while (length < session->count && !*whole)
        *whole = (*bytes)[length++] == '\n';
    session->first += length;
    session->count -= length;
    return length;
}

/* The next line without its end. Whether there is one that isn't longer than a line may be. */
static int hear(sja *session, char *line)
{
    size_t length = 0;
    int whole = 0;

    while (!whole) {
        const char *bytes;
        size_t count;

        if (!fill(session))
            return 0;
        count = take(session, &bytes, &whole);
        if (length + count >= LINE)
            return 0;
        memcpy(line + length, bytes, count);
        length += count;
    }
    line[length - 1] = '\0';
    return 1;
}

/* Says a line, and hears the one back. Whether both were done. */
static int ask(sja *session, const char *said, char *heard)
{
    return say(session, said) && hear(session, heard);
}

/* Whether a line begins with a word, and the number behind it. */
static int tells(const char *line, const char *word, int base, uint64_t *number)
{
    size_t length = strlen(word);
    char *end;

    if (strncmp(line, word, length) != 0 || line[length] != ' ')
        return 0;
    *number = strtoull(line + length + 1, &end, base);
    return end != line + length + 1;
}

/* What a line says that isn't an answer of its call. */
static sja_answer refused(const char *line)
{
    static const struct { const char *line; uint32_t status; } lines[] = {
        { "no VERSION", SJA_NO_VERSION }, { "no BITS", SJA_NO_BITS }, { "no NODES", SJA_NO_NODES },
        { "no NODE", SJA_NO_NODE }, { "no ADDRESS", SJA_NO_ADDRESS }, { "no BYTE", SJA_NO_BYTE },
        { "no BIT", SJA_PAST }, { "full STEPS", SJA_STEPS_USED }, { "full TURNS", SJA_TURNS_USED },
        { "full STRIKES", SJA_STRIKES_USED }, { "full PLAN", SJA_NO_DOCUMENT },
    };

    for (size_t i = 0; i < sizeof lines / sizeof *lines; i++)
        if (strcmp(line, lines[i].line) == 0)
            return answer(lines[i].status, 0);
    return answer(SJA_BROKEN, 0);
}

/* ---- the calls */

/* There is no session: as where one has ended, and there was no memory for its log. */
static void leave_none(sja *session)
{
    *session = (sja){ .ended = 1, .plan_status = SJA_NO_MEMORY, .report_status = SJA_NO_MEMORY,
                      .process = { .to = -1, .from = -1, .told = -1 } };
}

/* Ends the process of a session, and drops its texts. */
static void drop(sja *session)
{
    if (session->process.to >= 0) {
        close_ends(&session->process);
        finished(&session->process);
    }
    text_free(&session->plan);
    text_free(&session->report);
}

sja_answer sja_make(sja **session)
{
    if (session == NULL)
        return answer(SJA_NO_HANDLE, 0);
    *session = malloc(sizeof **session);
    if (*session == NULL)
        return answer(SJA_NO_MEMORY, 0);
    leave_none(*session);
    return answer(SJA_DONE, 0);
}

sja_answer sja_begin(sja *session, uint32_t version, uint32_t bits, uint32_t nodes)
{
    char said[LINE], heard[LINE];
    sja made = { .bits = bits, .nodes = nodes, .lost = SJA_BROKEN };
    sja_answer told;

    if (session == NULL)
        return answer(SJA_NO_HANDLE, 0);
    if (!start("live", &made.process))
        return answer(SJA_BROKEN, 0);
    snprintf(said, sizeof said, "live %u %u %u\n", (unsigned)at_most(version, GREATEST),
             (unsigned)at_most(bits, GREATEST), (unsigned)at_most(nodes, GREATEST));
    if (!ask(&made, said, heard))
        told = answer(made.lost, 0);
    else
        told = strcmp(heard, "ok") == 0 ? answer(SJA_DONE, 0) : refused(heard);
    if (told.status != SJA_DONE) {
        drop(&made);
        return told;
    }
    drop(session);
    *session = made;
    return told;
}

/* Why a call of a node can't be asked for. */
static uint32_t is_askable(const sja *session, uint32_t node)
{
    if (session == NULL)
        return SJA_NO_HANDLE;
    if (session->ended)
        return SJA_ENDED;
    return node < session->nodes ? SJA_DONE : SJA_NO_NODE;
}

sja_answer sja_read(sja *session, uint32_t node, uint32_t address)
{
    char said[LINE], heard[LINE];
    uint32_t status = is_askable(session, node);
    uint64_t value;

    if (status == SJA_NO_HANDLE || status == SJA_ENDED)
        return answer(status, 0);
    if (address > 255)
        return answer(SJA_NO_ADDRESS, 0);
    if (status != SJA_DONE)
        return answer(status, 0);
    snprintf(said, sizeof said, "read %u %u\n", (unsigned)node, (unsigned)address);
    if (!ask(session, said, heard))
        return answer(session->lost, 0);
    return tells(heard, "value", 16, &value) ? answer(SJA_DONE, value) : refused(heard);
}

sja_answer sja_write(sja *session, uint32_t node, uint32_t address, uint32_t value)
{
    char said[LINE], heard[LINE];
    uint32_t status = is_askable(session, node);

    if (status == SJA_NO_HANDLE || status == SJA_ENDED)
        return answer(status, 0);
    if (address > 255 || value > 255)
        return answer(address > 255 ? SJA_NO_ADDRESS : SJA_NO_BYTE, 0);
    if (status != SJA_DONE)
        return answer(status, 0);
    snprintf(said, sizeof said, "write %u %u %02x\n", (unsigned)node, (unsigned)address, (unsigned)value);
    if (!ask(session, said, heard))
        return answer(session->lost, 0);
    return strcmp(heard, "ok") == 0 ? answer(SJA_DONE, 0) : refused(heard);
}

/* The interrupt lines that are active, a bit a node. */
static sja_answer heard_lines(sja *session)
{
    char heard[LINE];
    uint64_t active;

    if (!hear(session, heard))
        return answer(session->lost, 0);
    return tells(heard, "line", 16, &active) ? answer(SJA_DONE, active) : refused(heard);
}

static sja_answer lines(sja *session)
{
    return say(session, "line\n") ? heard_lines(session) : answer(session->lost, 0);
}

/* Runs up to the first bit in which some line rises. How many bits were run, and the lines that are active then; `none`
 * where no line rose. `before`, where it isn't null, gets the lines that were active before: they are asked for
 * together with the bits, so that the process is woken once. */
static sja_answer run(sja *session, uint32_t count, uint64_t *before, uint64_t *active, int *none)
{
    char said[LINE], heard[LINE];
    sja_answer looked = answer(SJA_DONE, 0);
    uint64_t run;
    const char *line;

    snprintf(said, sizeof said, "%srun %u\n", before != NULL ? "line\n" : "", (unsigned)count);
    if (!say(session, said))
        return answer(session->lost, 0);
    if (before != NULL) {
        looked = heard_lines(session);
        *before = looked.value;
    }
    if (!hear(session, heard))
        return answer(session->lost, 0);
    if (looked.status != SJA_DONE)
        return looked;
    if (!tells(heard, "ran", 10, &run))
        return refused(heard);
    line = strstr(heard, " line ");
    *none = line == NULL || !tells(line + 1, "line", 16, active);
    return answer(SJA_DONE, run);
}

/* The number of the first node of these, counted from 1. */
static uint32_t first_node(uint64_t nodes)
{
    uint32_t node = 1;

    for (; !(nodes & 1); nodes >>= 1)
        node++;
    return node;
}

/* A line of the process has room for bits up to GREATEST. So more of them are asked for again, as long as none of those
 * before was missing. */
sja_answer sja_bits(sja *session, uint32_t count, uint32_t watch)
{
    sja_answer told;
    uint32_t status = is_askable(session, 0), most;
    uint64_t total = 0, before = 0, active = 0;
    uint64_t *look = watch != 0 ? &before : NULL;
    int none = 0;

    if (status != SJA_DONE)
        return answer(status, 0);
    do {
        most = at_most(count - (uint32_t)total, GREATEST);
        told = run(session, most, look, &active, &none);
        if (told.status != SJA_DONE)
            return told;
        total += told.value;
        if (!none && (active & ~before & watch))
            return (sja_answer){ SJA_DONE, first_node(active & ~before & watch), total };
        if (!none)
            before = active;
        look = NULL;
    } while (total < count && (!none || told.value == most));
    return answer(SJA_DONE, total);
}

sja_answer sja_irq(sja *session, uint32_t node)
{
    uint32_t status = is_askable(session, node);
    sja_answer active;

    if (status != SJA_DONE)
        return answer(status, 0);
    active = lines(session);
    return active.status == SJA_DONE ? answer(SJA_DONE, active.value >> node & 1) : active;
}

sja_answer sja_lines(sja *session)
{
    uint32_t status = is_askable(session, 0);

    return status == SJA_DONE ? lines(session) : answer(status, 0);
}

sja_answer sja_strike_at(sja *session, uint32_t node, uint32_t low, uint32_t high)
{
    uint64_t bit = (uint64_t)high << 32 | low;
    char said[LINE], heard[LINE];
    uint32_t status = is_askable(session, node);

    if (status != SJA_DONE)
        return answer(status, 0);
    if (bit >= (session->bits > 0 ? session->bits : WITHOUT_END))
        return answer(SJA_NO_BIT, 0);
    snprintf(said, sizeof said, "strike %u %" PRIu64 "\n", (unsigned)node, bit);
    if (!ask(session, said, heard))
        return answer(session->lost, 0);
    return strcmp(heard, "ok") == 0 ? answer(SJA_DONE, 0) : refused(heard);
}

/* The places of a frame, in the order of enum sja_places, with the least and the greatest number of each. */
static const struct { const char *name; unsigned least, most; } places[] = {
    { "SOF", 0, 0 }, { "ID.%u", 0, 28 }, { "SRR", 0, 0 }, { "RTR", 0, 0 }, { "IDE", 0, 0 }, { "r1", 0, 0 },
    { "r0", 0, 0 }, { "DLC.%u", 0, 3 }, { "data %u.%u", 10, 87 }, { "CRC.%u", 0, 14 }, { "CRC delimiter", 0, 0 },
    { "ACK", 0, 0 }, { "ACK delimiter", 0, 0 }, { "EOF.%u", 1, 7 }, { "intermission.%u", 1, 3 }, { "stuff.%u", 1, 29 },
};

/* The name of the place with this number, in room for LINE bytes. False where there is none. */
static int name_place(uint32_t number, char *name)
{
    unsigned kind = (unsigned)(number >> 8), own = (unsigned)(number & 255);

    if (kind < 1 || kind > sizeof places / sizeof *places)
        return 0;
    kind--;
    if (own < places[kind].least || own > places[kind].most)
        return 0;
    if (kind + 1 == SJA_DATA >> 8) {
        if (own % 10 > 7)
            return 0;
        snprintf(name, LINE, places[kind].name, own / 10, own % 10);
    } else {
        snprintf(name, LINE, places[kind].name, own);
    }
    return 1;
}

/* The number of the place with this name. */
static uint32_t number_place(const char *name)
{
    char other[LINE];

    for (uint32_t number = SJA_SOF; number <= SJA_STUFF + 255; number++)
        if (name_place(number, other) && strcmp(name, other) == 0)
            return number;
    return SJA_NOWHERE;
}

sja_answer sja_place(sja *session, uint32_t node)
{
    char said[LINE], heard[LINE];
    uint32_t status = is_askable(session, node);

    if (status != SJA_DONE)
        return answer(status, 0);
    snprintf(said, sizeof said, "place %u\n", (unsigned)node);
    if (!ask(session, said, heard))
        return answer(session->lost, 0);
    if (strcmp(heard, "nothing") == 0)
        return answer(SJA_DONE, SJA_NOWHERE);
    return strncmp(heard, "place ", 6) == 0 ? answer(SJA_DONE, number_place(heard + 6)) : refused(heard);
}

sja_answer sja_to(sja *session, uint32_t node, uint32_t place, uint32_t limit)
{
    char name[LINE], said[LINE + LINE], heard[LINE];
    uint32_t status = is_askable(session, 0);
    uint64_t ran;

    if (status != SJA_DONE)
        return answer(status, 0);
    if (!name_place(place, name))
        return answer(SJA_NO_PLACE, 0);
    if (node >= session->nodes)
        return answer(SJA_NO_NODE, 0);
    do {
        uint32_t most = at_most(limit, GREATEST);

        snprintf(said, sizeof said, "to %u %s %u\n", (unsigned)node, name, (unsigned)most);
        if (!ask(session, said, heard))
            return answer(session->lost, 0);
        if (strncmp(heard, "ran ", 4) != 0)
            return refused(heard);
        if (strstr(heard, " spent") == NULL)
            return answer(SJA_DONE, 1);
        ran = strtoull(heard + 4, NULL, 10);
        limit = ran < most ? 0 : limit - most;
    } while (limit > 0);
    return answer(SJA_DONE, 0);
}

sja_answer sja_now(sja *session)
{
    char heard[LINE];
    uint32_t status = is_askable(session, 0);
    uint64_t now;

    if (status != SJA_DONE)
        return answer(status, 0);
    if (!ask(session, "bits\n", heard))
        return answer(session->lost, 0);
    return tells(heard, "bits", 10, &now) ? answer(SJA_DONE, now) : refused(heard);
}

/* Reads the plan so far into the session's text. Where there is no memory for it the answer is heard to its end all the
 * same. */
static uint32_t read_plan(sja *session)
{
    static const char too_long[] = "full PLAN\n";
    uint32_t status = SJA_DONE;
    int begins = 1;

    text_free(&session->plan);
    if (!say(session, "plan\n"))
        return session->lost;
    for (;;) {
        const char *bytes;
        size_t count;
        int whole, was = begins;

        if (!fill(session)) {
            text_free(&session->plan);
            return session->lost;
        }
        count = take(session, &bytes, &whole);
        begins = whole;
        if (was && whole && count == 2 && bytes[0] == '.')
            return status;
        if (status == SJA_DONE && !text_add(&session->plan, bytes, count)) {
            text_free(&session->plan);
            status = SJA_NO_MEMORY;
        }
        if (whole && session->plan.length == sizeof too_long - 1
            && memcmp(session->plan.bytes, too_long, sizeof too_long - 1) == 0) {
            text_free(&session->plan);
            return SJA_NO_DOCUMENT;
        }
    }
}

/* Ends the session, and reads its report. */
static uint32_t read_report(sja *session)
{
    session->plan_status = read_plan(session);
    session->ended = 1;
    if (!say(session, "end\n"))
        return session->lost;
    while (fill(session)) {
        if (!text_add(&session->report, session->held + session->first, session->count))
            return SJA_NO_MEMORY;
        session->count = 0;
    }
    return session->report.length > 0 ? SJA_DONE : session->lost;
}

sja_answer sja_put_report(sja *session, char *text, size_t size)
{
    if (session == NULL)
        return answer(SJA_NO_HANDLE, 0);
    if (!session->ended && session->bits == 0)
        return answer(SJA_ENDLESS, 0);
    if (!session->ended)
        session->report_status = read_report(session);
    if (session->report_status != SJA_DONE)
        return answer(session->report_status, 0);
    return text_put(&session->report, text, size);
}

sja_answer sja_put_plan(sja *session, char *text, size_t size)
{
    if (session == NULL)
        return answer(SJA_NO_HANDLE, 0);
    if (!session->ended && session->bits == 0)
        return answer(SJA_ENDLESS, 0);
    if (!session->ended)
        session->plan_status = read_plan(session);
    if (session->plan_status != SJA_DONE)
        return answer(session->plan_status, 0);
    return text_put(&session->plan, text, size);
}

sja_answer sja_let_go(sja *session)
{
    if (session == NULL)
        return answer(SJA_NO_HANDLE, 0);
    drop(session);
    leave_none(session);
    return answer(SJA_DONE, 0);
}

/* What became of a run whose program ended with this status: 1 says that the bytes are no plan. */
static uint32_t run_status(int status)
{
    return status == 0 ? SJA_DONE : status == 1 ? SJA_NO_PLAN : broken(status);
}

sja_answer sja_put_run(const char *plan, size_t length, char *text, size_t size)
{
    struct text report = { 0 };
    char bytes[BYTES];
    ssize_t count;
    int kept = 1;
    struct process process;
    uint32_t status;
    sja_answer told;

    if (!start("run", &process))
        return answer(SJA_BROKEN, 0);
    /* A program that refuses the plan may leave some of it unread. */
    write_all(process.to, plan, length);
    close(process.to);
    while ((count = read(process.from, bytes, BYTES)) != 0) {
        if (count < 0 && errno != EINTR)
            break;
        if (count > 0 && kept)
            kept = text_add(&report, bytes, (size_t)count);
    }
    close(process.from);
    status = run_status(finished(&process));
    if (status != SJA_DONE)
        told = answer(status, 0);
    else
        told = kept ? text_put(&report, text, size) : answer(SJA_NO_MEMORY, 0);
    text_free(&report);
    return told;
}
