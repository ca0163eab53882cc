/* Linked into the program with checks: if a check stops it, by SIGILL, a line on standard error says so, and in which
 * function. The kit's compiler has no headers, so what is taken of Linux and ELF, for x86-64, is declared here. */

typedef unsigned long word;

enum { SIGILL = 4, SA_SIGINFO = 4, SA_RESETHAND = (int)0x80000000, SYMBOLS = 2, FUNCTION = 2, NAME = 300 };

/* siginfo_t, as far as it is read: the instruction at which a signal came. */
struct stop {
    int signal, error, code, unused;
    word place;
};

struct sigaction {
    void (*handler)(int, const struct stop *, void *);
    word masked[16];
    int flags;
    void (*restorer)(void);
};

struct section {
    unsigned name, kind;
    word flags, address, offset, size;
    unsigned link, more;
    word alignment, each;
};

struct symbol {
    unsigned name;
    unsigned char kind, seen;
    unsigned short section;
    word address, size;
};

extern const char __ehdr_start[];
int sigaction(int, const struct sigaction *, struct sigaction *);
int open(const char *, int, ...);
long pread(int, void *, word, long);
long write(int, const void *, word);
word strlen(const char *);

/* The section of the program's file with this number. */
static struct section section_of(int file, unsigned number)
{
    struct section found = { 0 };
    word sections = 0;

    pread(file, &sections, sizeof sections, 40);
    pread(file, &found, sizeof found, (long)(sections + number * sizeof found));
    return found;
}

/* Where the name of the function at an address stands in the program's file, or 0. */
static word place_of_name(int file, word address)
{
    unsigned short count = 0;

    pread(file, &count, sizeof count, 60);
    for (unsigned number = 0; number < count; number++) {
        struct section table = section_of(file, number);

        for (word at = 0; table.kind == SYMBOLS && at < table.size; at += sizeof(struct symbol)) {
            struct symbol one = { 0 };

            pread(file, &one, sizeof one, (long)(table.offset + at));
            if ((one.kind & 15) == FUNCTION && address - one.address < one.size)
                return section_of(file, table.link).offset + one.name;
        }
    }
    return 0;
}

static void say(const char *text)
{
    if (write(2, text, strlen(text)) < 0)
        return;
}

/* Says where the check stands. The instruction is done again behind it, and ends the program by the same signal. */
static void tell(int signal, const struct stop *stop, void *context)
{
    char name[NAME] = "";
    int file = open("/proc/self/exe", 0);
    word place = file < 0 ? 0 : place_of_name(file, stop->place - (word)__ehdr_start);

    (void)signal, (void)context;
    if (place > 0)
        pread(file, name, NAME - 1, (long)place);
    say("sja: a check stopped the program");
    say(name[0] ? " in " : "");
    say(name);
    say(": a mistake of its own, not of the plan or the driver\n");
}

__attribute__((constructor)) static void begin(void)
{
    struct sigaction action = { .handler = tell, .flags = SA_SIGINFO | SA_RESETHAND };

    sigaction(SIGILL, &action, 0);
}
