/* Performs the calls of a script on the same source, compiled for this machine, and prints how each ends, as a report
   says it. usage: calls MODULE.so SCRIPT. The services are the functions below; a move does nothing here. */
#include <dlfcn.h>
#include <setjmp.h>
#include <stdio.h>
#include <stdlib.h>
#include <string.h>

enum { NOTES = 16, QUEUE = 256, ARGUMENTS = 8, LINE = 1024 };

static unsigned long notes[NOTES], queue[QUEUE];
static unsigned long first, length; /* of the queue */
static int noted;
static jmp_buf end; /* where a call is given up */
static unsigned long given_up_with;
enum { RUNS = 0, GAVE_UP = 1, NO_ROOM = 2 };

unsigned long k_note(unsigned long word)
{
    if (noted == NOTES)
        longjmp(end, NO_ROOM);
    notes[noted++] = word;
    return word;
}

void k_abort(unsigned long word)
{
    given_up_with = word;
    longjmp(end, GAVE_UP);
}

unsigned long k_out(unsigned long word)
{
    if (length == QUEUE)
        return 0;
    queue[(first + length++) % QUEUE] = word;
    return 1;
}

unsigned long k_in(void)
{
    if (length == 0)
        return 0;
    unsigned long word = queue[first];
    first = (first + 1) % QUEUE;
    length--;
    return word;
}

typedef unsigned long function(unsigned long, unsigned long, unsigned long, unsigned long, unsigned long, unsigned long,
                               unsigned long, unsigned long);

static void call(function *f, const unsigned long *a)
{
    noted = 0;
    switch (setjmp(end)) {
    case RUNS: printf("returned %lu", f(a[0], a[1], a[2], a[3], a[4], a[5], a[6], a[7])); break;
    case GAVE_UP: printf("abort %lu", given_up_with); break;
    case NO_ROOM: printf("trap notes"); break;
    }
    if (noted > 0)
        printf(" notes");
    for (int i = 0; i < noted; i++)
        printf(" %lu", notes[i]);
    printf("\n");
}

int main(int words, char **word)
{
    void *module = words == 3 ? dlopen(word[1], RTLD_NOW | RTLD_LOCAL) : NULL;
    FILE *script = words == 3 ? fopen(word[2], "r") : NULL;
    char line[LINE];
    if (module == NULL || script == NULL) {
        fprintf(stderr, "calls: %s\n", module == NULL && words == 3 ? dlerror() : "usage: calls MODULE.so SCRIPT");
        return 1;
    }
    while (fgets(line, sizeof line, script) != NULL) {
        unsigned long arguments[ARGUMENTS] = {0};
        char *at = strtok(line, " \n");
        if (at == NULL || strcmp(at, "call") != 0)
            continue;
        strtok(NULL, " \n"); /* the worker */
        char *named = strchr(strtok(NULL, " \n"), '.') + 1;
        for (int i = 0; i < ARGUMENTS && (at = strtok(NULL, " \n")) != NULL; i++)
            arguments[i] = strtoul(at, NULL, 10);
        function *f = (function *)dlsym(module, named);
        if (f == NULL) {
            fprintf(stderr, "calls: no function %s\n", named);
            return 1;
        }
        call(f, arguments);
    }
    return 0;
}
