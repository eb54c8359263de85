/* Calls on a thread with 512 KiB of stack, which is what the library asks for: documents that nest as deep as they may, read and
 * refused, one that nests deeper, and the largest marker. The gate runs it. */
#include <pthread.h>
#include <stdio.h>
#include <stdlib.h>
#include <string.h>

#include "tubrambutan.h"

enum { STACK = 512 * 1024, BRACKETS = 80, COMPARISONS = 1024, ROOM = 65536 };

static const char ENVIRONMENT[] =
    "os_name = ''\nsys_platform = ''\nplatform_machine = ''\nplatform_python_implementation = ''\n"
    "platform_release = ''\nplatform_system = ''\nplatform_version = ''\npython_version = '3'\n"
    "python_full_version = '3.0'\nimplementation_name = ''\nimplementation_version = '3.0'\n";

static char text[ROOM];

/* Writes the front, 80 nested inline tables, and the end behind them. Each key has `parts` parts, so there are 80 times as many levels. */
static void nest(const char *front, int parts, const char *behind)
{
    char *end = text + sprintf(text, "%s", front);

    for (int it = 0; it < BRACKETS; it++) {
        end += sprintf(end, "{b");
        for (int part = 1; part < parts; part++)
            end += sprintf(end, ".b");
        end += sprintf(end, "=");
    }
    end += sprintf(end, "1");
    for (int it = 0; it < BRACKETS; it++)
        end += sprintf(end, "}");
    sprintf(end, "%s", behind);
}

/* Writes a requirement with the largest marker. */
static void compare(void)
{
    char *end = text + sprintf(text, "a;%.*s", 64, "((((((((((((((((((((((((((((((((((((((((((((((((((((((((((((((((");

    for (int it = 1; it < COMPARISONS; it++)
        end += sprintf(end, "os_name=='x' or ");
    end += sprintf(end, "os_name==''");
    memset(end, ')', 64);
    end[64] = '\0';
}

/* Checks version 1 of the package a against the text, and prints the reply if it isn't as wanted: the line `wanted`, or the answer 1 if that
 * is null. Returns whether it is as wanted. */
static int asks(const char *what, uint32_t kind, const char *wanted)
{
    uint8_t room[64] = {0};
    tubrambutan_part part = {kind, strlen(text), 0};
    tubrambutan_reply reply = tubrambutan_check((const uint8_t *)ENVIRONMENT, strlen(ENVIRONMENT), &part, 1, (const uint8_t *)text, strlen(text),
                                                (const uint8_t *)"a", 1, (const uint8_t *)"1", 1, false, room, sizeof room);
    int is_wanted = wanted == NULL ? reply.status == TUBRAMBUTAN_ANSWERED && reply.answer == 1
                                   : reply.size == strlen(wanted) && memcmp(room, wanted, reply.size) == 0;

    if (!is_wanted)
        printf("%s: status %u, %d, %.*s\n", what, (unsigned)reply.status, (int)reply.answer, (int)sizeof room, (const char *)room);
    return is_wanted;
}

static void *run(void *all_wanted)
{
    static const char REFUSED[] = "refused input 1 code 52\n";
    int wanted = 1;

    nest("project={}\nx=", 8, "");
    wanted &= asks("640 levels", TUBRAMBUTAN_PROJECT, NULL);
    nest("project={}\nx=", 8, "\n=");
    wanted &= asks("640 levels, and no key behind them", TUBRAMBUTAN_PROJECT, REFUSED);
    nest("project={}\nx=", 8, "\nx=1");
    wanted &= asks("640 levels, and a key twice", TUBRAMBUTAN_PROJECT, REFUSED);
    nest("project={}\nx=", 80, "");
    wanted &= asks("6,400 levels", TUBRAMBUTAN_PROJECT, REFUSED);
    nest("project={}\nx=", 80, "\n=");
    wanted &= asks("6,400 levels, and no key behind them", TUBRAMBUTAN_PROJECT, REFUSED);
    compare();
    wanted &= asks("1,024 comparisons", TUBRAMBUTAN_LIST, NULL);
    *(int *)all_wanted = wanted;
    return NULL;
}

int main(void)
{
    pthread_attr_t attributes;
    pthread_t thread;
    int wanted = 0;

    if (pthread_attr_init(&attributes) != 0 || pthread_attr_setstacksize(&attributes, STACK) != 0
        || pthread_create(&thread, &attributes, run, &wanted) != 0 || pthread_join(thread, NULL) != 0)
        return EXIT_FAILURE;
    pthread_attr_destroy(&attributes);
    return wanted ? EXIT_SUCCESS : EXIT_FAILURE;
}
