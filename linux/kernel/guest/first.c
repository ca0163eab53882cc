/* SPDX-License-Identifier: GPL-2.0-only */
/* The first process of a kernel, whose root is the files of the machine, read only. It runs the scripts that it is
 * told, one after the other, and switches off. The command line of the kernel names `tools`, a folder of programs,
 * `load`, modules to load, with a comma between two, and `folder`, which is seen as /run/kernel. /run is a place to
 * write. */
#include <fcntl.h>
#include <libgen.h>
#include <stdio.h>
#include <stdlib.h>
#include <string.h>
#include <sys/mount.h>
#include <sys/reboot.h>
#include <sys/stat.h>
#include <sys/syscall.h>
#include <sys/wait.h>
#include <time.h>
#include <unistd.h>

#include "window.h"

enum { COMMAND_LINE = 4096, ASKS_AGAIN = 10 * 1000 * 1000, NOT_RUN = 127, SIGNALLED = 128 };

static void mount_all(void)
{
    if (mount("proc", "/proc", "proc", 0, NULL) != 0 || mount("sysfs", "/sys", "sysfs", 0, NULL) != 0
        || mount("tmpfs", "/run", "tmpfs", 0, NULL) != 0)
        perror("first: mount");
    mount("debugfs", "/sys/kernel/debug", "debugfs", 0, NULL);
    if (mkdir("/run/kernel", S_IRWXU) != 0
        || mount("folder", "/run/kernel", "hostfs", MS_RDONLY, getenv("folder")) != 0)
        perror("first: /run/kernel");
}

static void set_environment(void)
{
    char path[COMMAND_LINE];
    const char *tools = getenv("tools");

    snprintf(path, sizeof path, "%s:/usr/local/bin:/usr/bin:/bin:/usr/sbin:/sbin", tools != NULL ? tools : "");
    setenv("PATH", path, 1);
    setenv("TMPDIR", "/run", 1);
    setenv("HOME", "/run", 1);
    setenv("LC_ALL", "C", 1);
    setenv("PYTHONDONTWRITEBYTECODE", "1", 1);
}

/* The parameters of a module: what the kernel's command line says with its name and a point before. */
static void parameters_of(const char *name, char parameters[COMMAND_LINE])
{
    char line[COMMAND_LINE] = "", *rest = line, *word;
    size_t length = strlen(name);
    int file = open("/proc/cmdline", O_RDONLY);

    parameters[0] = 0;
    if (file < 0 || read(file, line, sizeof line - 1) < 0)
        return;
    close(file);
    while ((word = strsep(&rest, " \n")) != NULL)
        if (strncmp(word, name, length) == 0 && word[length] == '.') {
            strcat(parameters, word + length + 1);
            strcat(parameters, " ");
        }
}

static void load(char *path)
{
    char copy[COMMAND_LINE], parameters[COMMAND_LINE], *name;
    int file = open(path, O_RDONLY);

    snprintf(copy, sizeof copy, "%s", path);
    name = basename(copy);
    name[strcspn(name, ".")] = 0;
    parameters_of(name, parameters);
    if (file < 0 || syscall(SYS_finit_module, file, parameters, 0) != 0)
        perror(path);
    close(file);
}

/* Becomes the script: as a program if it may be run, else as one of the shell. */
static void become(char *path)
{
    char folder[COMMAND_LINE];

    snprintf(folder, sizeof folder, "%s", path);
    if (chdir(dirname(folder)) != 0)
        perror(path);
    if (access(path, X_OK) == 0)
        execl(path, path, (char *)NULL);
    execl("/bin/sh", "sh", path, (char *)NULL);
    perror(path);
    _exit(NOT_RUN);
}

/* Runs a script, and takes what became of others that ended meanwhile. Its status. */
static int run(char *path)
{
    pid_t child = fork(), ended;
    int status = 0;

    if (child == 0)
        become(path);
    do {
        ended = wait(&status);
    } while (ended > 0 && ended != child);
    return WIFEXITED(status) ? WEXITSTATUS(status) : SIGNALLED + WTERMSIG(status);
}

int main(void)
{
    char line[WINDOW_ROOM], answer[WINDOW_ROOM], *all = getenv("load"), *path;
    int status = 0;

    mount_all();
    set_environment();
    while (all != NULL && (path = strsep(&all, ",")) != NULL)
        load(path);
    for (;;) {
        snprintf(line, sizeof line, "next %d", status);
        if (window_say(line, answer) != 0 || strncmp(answer, "end", 3) == 0)
            break;
        if (strncmp(answer, "script ", 7) == 0)
            status = run(answer + 7);
        else
            nanosleep(&(struct timespec){ 0, ASKS_AGAIN }, NULL);
    }
    sync();
    reboot(RB_POWER_OFF);
    return 1;
}
