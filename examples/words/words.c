/* Strings, and a switch over them: the names of a machine's commands, and what each does. */
static const char *name_of(unsigned long command)
{
    switch (command) {
    case 0: return "stop";
    case 1: return "forward";
    case 2: return "left";
    case 3: return "right";
    case 4: return "back";
    case 5: return "turn around";
    default: return "";
    }
}

/* How long a command's name is. */
long length(unsigned long command)
{
    const char *name = name_of(command);
    long letters = 0;
    while (name[letters] != 0)
        letters++;
    return letters;
}

/* A letter of a command's name, or 0 behind its end. */
long letter(unsigned long command, unsigned long at)
{
    const char *name = name_of(command);
    for (unsigned long i = 0; i < at; i++)
        if (name[i] == 0)
            return 0;
    return name[at];
}

static long x, y, heading; /* heading: 0 north, 1 east, 2 south, 3 west */

static void go(long steps)
{
    switch (heading) {
    case 0: y += steps; break;
    case 1: x += steps; break;
    case 2: y -= steps; break;
    case 3: x -= steps; break;
    }
}

/* Does a command, with a number of steps: 1, or 0 where there is no such command. */
long act(unsigned long command, long steps)
{
    switch (command) {
    case 0: return 1;
    case 1: go(steps); return 1;
    case 2: heading = (heading + 3) & 3; go(steps); return 1;
    case 3: heading = (heading + 1) & 3; go(steps); return 1;
    case 4: go(-steps); return 1;
    case 5: heading = (heading + 2) & 3; return 1;
    default: return 0;
    }
}

/* Where the machine is: 1,000 times how far north, and how far east. */
long position(void)
{
    return 1000 * y + x;
}
