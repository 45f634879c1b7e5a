#include <stdio.h>
#include <stdlib.h>
#include <string.h>

struct name { char text[32]; };

struct name *names(size_t count)
{
    return malloc(count * sizeof(struct name));
}

int ask(struct name *name)
{
    char line[80];
    if (!gets(line))
        return 0;
    strcpy(name->text, line);
    return 1;
}

void forget(struct name *name)
{
    strcpy(name->text, "");
}
