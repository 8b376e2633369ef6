/* Performs calls on a module that is compiled for this machine, and prints how each ends, as a report says it.
   usage: native MODULE.so. Each line of the input is a call: the number of the mapping that it ran under, the export,
   and its arguments in decimal digits. The services are the functions below. */
#include <dlfcn.h>
#include <setjmp.h>
#include <stdio.h>
#include <stdlib.h>
#include <string.h>

enum { NOTES = 16, QUEUE = 256, ARGUMENTS = 8, LINE = 1024 };

static unsigned long notes[NOTES], queue[QUEUE];
static unsigned long first, length; /* of the queue */
static int noted;
static jmp_buf caller; /* where a call that ends otherwise than by its return goes on */
static const char *how;
static unsigned long given_up_with;
enum { RUNS = 0, GAVE_UP = 1, ENDED = 2 };

unsigned long under;

void ends(const char *words)
{
    how = words;
    longjmp(caller, ENDED);
}

unsigned long k_note(unsigned long number)
{
    if (noted == NOTES)
        ends("trap notes");
    notes[noted++] = number;
    return number;
}

void k_abort(unsigned long number)
{
    given_up_with = number;
    longjmp(caller, GAVE_UP);
}

unsigned long k_out(unsigned long number)
{
    if (length == QUEUE)
        return 0;
    queue[(first + length++) % QUEUE] = number;
    return 1;
}

unsigned long k_in(void)
{
    if (length == 0)
        return 0;
    unsigned long number = queue[first];
    first = (first + 1) % QUEUE;
    length--;
    return number;
}

typedef unsigned long function(unsigned long, unsigned long, unsigned long, unsigned long, unsigned long, unsigned long,
                               unsigned long, unsigned long);

static void call(function *f, const unsigned long *a)
{
    noted = 0;
    switch (setjmp(caller)) {
    case RUNS: printf("returned %lu", f(a[0], a[1], a[2], a[3], a[4], a[5], a[6], a[7])); break;
    case GAVE_UP: printf("abort %lu", given_up_with); break;
    case ENDED: printf("%s", how); break;
    }
    if (noted > 0)
        printf(" notes");
    for (int i = 0; i < noted; i++)
        printf(" %lu", notes[i]);
    printf("\n");
}

int main(int words, char **word)
{
    void *module = words == 2 ? dlopen(word[1], RTLD_NOW | RTLD_LOCAL) : NULL;
    char line[LINE];
    if (module == NULL) {
        fprintf(stderr, "native: %s\n", words == 2 ? dlerror() : "usage: native MODULE.so");
        return 1;
    }
    while (fgets(line, sizeof line, stdin) != NULL) {
        unsigned long arguments[ARGUMENTS] = {0};
        char *at = strtok(line, " \n");
        under = strtoul(at, NULL, 10);
        char *name = strtok(NULL, " \n");
        for (int i = 0; i < ARGUMENTS && (at = strtok(NULL, " \n")) != NULL; i++)
            arguments[i] = strtoul(at, NULL, 10);
        function *f = (function *)dlsym(module, name);
        if (f == NULL) {
            fprintf(stderr, "native: no function %s\n", name);
            return 1;
        }
        call(f, arguments);
    }
    return 0;
}
