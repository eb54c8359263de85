/* Calls each function of the library, with room enough and with too little, and prints what goes out. The gate compares what it
 * prints with examples/calls.txt, and runs it under AddressSanitizer and valgrind. */
#include <stdio.h>
#include <stdlib.h>
#include <string.h>

#include "tubrambutan.h"

static const char ENVIRONMENT[] =
    "os_name = 'posix'\n"
    "sys_platform = 'linux'\n"
    "platform_machine = 'x86_64'\n"
    "platform_python_implementation = 'CPython'\n"
    "platform_release = '6.1.0-18-amd64'\n"
    "platform_system = 'Linux'\n"
    "platform_version = '#1 SMP'\n"
    "python_version = '3.9'\n"
    "python_full_version = '3.9.18'\n"
    "implementation_name = 'cpython'\n"
    "implementation_version = '3.9.18'\n";

/* The bytes of a text, and how many they are, as two arguments of a call. */
#define BYTES(text) (const uint8_t *)(text), strlen(text)

/* Each room below is large enough for what goes out. A caller that doesn't know that compares the size first, as merge and too_little_room do. */
static void show(const char *call, tubrambutan_reply reply, const uint8_t *room)
{
    if (reply.status == TUBRAMBUTAN_MISCUT) {
        printf("%s: miscut\n", call);
    } else if (reply.size == 0) {
        printf("%s: %d\n", call, (int)reply.answer);
    } else {
        int is_line = room[reply.size - 1] == '\n';
        printf("%s: %.*s%s", call, (int)reply.size, (const char *)room, is_line ? "" : "\n");
    }
}

/* Texts with a zero byte between two, as two arguments of a call. */
#define TEXTS(array) (const uint8_t *)(array), sizeof(array) - 1

static void show_bytes(const char *call, tubrambutan_reply reply, const uint8_t *room)
{
    if (reply.status != 0) {
        show(call, reply, room);
        return;
    }
    printf("%s:", call);
    for (size_t at = 0; at < reply.size; at++) {
        printf(" %02x", room[at]);
    }
    printf("\n");
}

static void show_numbers(const char *call, tubrambutan_reply reply, const uint64_t *numbers, const uint8_t *room)
{
    if (reply.status != 0) {
        show(call, reply, room);
        return;
    }
    printf("%s:", call);
    for (size_t at = 0; at < reply.size; at++) {
        printf(" %llu", (unsigned long long)numbers[at]);
    }
    printf("\n");
}

/* Merges inputs, in room that grows until the text fits. */
static void merge(const char *call, const tubrambutan_part *parts, size_t count, const char *bytes)
{
    tubrambutan_reply reply = {0};
    uint8_t *room = NULL;
    size_t size;

    do {
        free(room);
        size = reply.size;
        room = calloc(size + 1, 1);
        if (room == NULL) {
            exit(EXIT_FAILURE);
        }
        reply = tubrambutan_merge(BYTES(ENVIRONMENT), parts, count, BYTES(bytes), room, size);
    } while (reply.size > size);
    show(call, reply, room);
    free(room);
}

static void merge_and_check(void)
{
    const char list[] = "flask>=2.0\nFlask[async]<3; python_version < '4'\n";
    const char table[] = "tomli open\n  range before 2 to end\n";
    char bytes[sizeof list + sizeof table];
    uint8_t room[256] = {0};
    tubrambutan_part parts[] = {{TUBRAMBUTAN_LIST, strlen(list), 0}, {TUBRAMBUTAN_TABLE, strlen(table), 0}};

    strcpy(bytes, list);
    strcat(bytes, table);
    merge("merge", parts, 2, bytes);
    show("check 2.3.2", tubrambutan_check(BYTES(ENVIRONMENT), parts, 2, BYTES(bytes), BYTES("flask"), BYTES("2.3.2"), false, room, sizeof room), room);
    show("check 3", tubrambutan_check(BYTES(ENVIRONMENT), parts, 2, BYTES(bytes), BYTES("flask"), BYTES("3"), false, room, sizeof room), room);
    parts[0].size -= 1;
    merge("merge", parts, 2, bytes);
    parts[0].kind = 3;
    parts[0].size += 1;
    merge("merge", parts, 2, bytes);
    merge("merge", &(tubrambutan_part){TUBRAMBUTAN_LIST, 17, 0}, 1, "flask>=2.0\nflask<");
    merge("merge", parts, 0, "");
}

/* A dependency group of a project file, whose name stands in front of it, and questions on what it demands. */
static void groups_and_questions(void)
{
    const char bytes[] = "DOCS[dependency-groups]\ndocs = ['sphinx<8,>=5']\n";
    tubrambutan_part part = {TUBRAMBUTAN_PROJECT, strlen(bytes) - 4, 4};
    uint8_t room[64] = {0};

    merge("group", &part, 1, bytes);
    show_bytes("check each", tubrambutan_check_each(BYTES(ENVIRONMENT), &part, 1, BYTES(bytes), TEXTS("Sphinx 7\0" "sphinx 4\0" "sphinx 6rc1\0" "other 1\0" "sphinx\0" "- 1"), room, sizeof room), room);
    part.kind = TUBRAMBUTAN_LIST;
    merge("group", &part, 1, bytes);
    part.kind = TUBRAMBUTAN_PROJECT;
    part.group_size += 1;
    part.size -= 1;
    merge("group", &part, 1, bytes);
}

/* Why packages have their verdicts. */
static void reasons(void)
{
    const char bytes[] = "flask>=3\n# why not\nflask<3\nflask!=2.1\nb open\n  range before 1 to end\n";
    tubrambutan_part parts[] = {{TUBRAMBUTAN_LIST, 38, 0}, {TUBRAMBUTAN_TABLE, 31, 0}};
    uint8_t room[128] = {0};

    show("why", tubrambutan_why(BYTES(ENVIRONMENT), parts, 2, BYTES(bytes), BYTES("Flask"), room, sizeof room), room);
    show("why", tubrambutan_why(BYTES(ENVIRONMENT), parts, 2, BYTES(bytes), BYTES("b"), room, sizeof room), room);
    show("why", tubrambutan_why(BYTES(ENVIRONMENT), parts, 2, BYTES(bytes), BYTES("-"), room, sizeof room), room);
    show("clashes", tubrambutan_clashes(BYTES(ENVIRONMENT), parts, 2, BYTES(bytes), room, sizeof room), room);
    parts[0].size -= 1;
    show("clashes", tubrambutan_clashes(BYTES(ENVIRONMENT), parts, 2, BYTES(bytes), room, sizeof room), room);
}

static void versions_and_clauses(void)
{
    uint8_t room[64] = {0};

    show("version", tubrambutan_version(BYTES(" 1.0a-1"), room, sizeof room), room);
    show("version", tubrambutan_version(BYTES("1.0.x"), room, sizeof room), room);
    show("requirement", tubrambutan_requirement(BYTES("Requests [security] (>=2.8.1) ; os_name=='nt'"), room, sizeof room), room);
    show("requirement", tubrambutan_requirement(BYTES("requests>="), room, sizeof room), room);
    show("admits", tubrambutan_admits(BYTES("~=2.2"), BYTES("2.9"), room, sizeof room), room);
    show("admits", tubrambutan_admits(BYTES("~=2.2"), BYTES("3"), room, sizeof room), room);
    show("admits", tubrambutan_admits(BYTES("2.2"), BYTES("3"), room, sizeof room), room);
    show("compare", tubrambutan_compare(BYTES("1.0.dev1"), BYTES("1.0a1"), room, sizeof room), room);
    show("compare", tubrambutan_compare(BYTES("1.0"), BYTES("1.0.0"), room, sizeof room), room);
    show("compare", tubrambutan_compare(BYTES("1.0"), BYTES("1.0rc1"), room, sizeof room), room);
}

static void parts_and_keys(void)
{
    uint8_t room[256] = {0};
    uint64_t numbers[16] = {0};

    show("requirement parts", tubrambutan_requirement_parts(BYTES("Flask[B,a] >=2.0, <3 ; os_name=='nt'"), room, sizeof room), room);
    show("requirement parts", tubrambutan_requirement_parts(BYTES("a @ https://x.test/1"), room, sizeof room), room);
    show("requirement parts", tubrambutan_requirement_parts(BYTES("a>="), room, sizeof room), room);
    show("name", tubrambutan_name(BYTES("Zope.Interface"), room, sizeof room), room);
    show("name", tubrambutan_name(BYTES("-"), room, sizeof room), room);
    show("clauses", tubrambutan_clauses(BYTES(" >= 1.0 ,, ~=2.2,==1.*"), room, sizeof room), room);
    show("clauses", tubrambutan_clauses(BYTES(">=1,1"), room, sizeof room), room);
    show_bytes("admits each", tubrambutan_admits_each(BYTES(">=1,!=2"), TEXTS("1\0" "0.9\0" "x\0" "3rc1\0" "2.0"), room, sizeof room), room);
    show("admits each", tubrambutan_admits_each(BYTES(">=1.*"), TEXTS("1"), room, sizeof room), room);
    show_bytes("key", tubrambutan_key(BYTES("1.0a2"), room, sizeof room), room);
    show("key", tubrambutan_key(BYTES("x"), room, sizeof room), room);
    show_bytes("keys", tubrambutan_keys(TEXTS("1+x\0" "y"), room, sizeof room), room);
    show_numbers("version numbers", tubrambutan_version_numbers(BYTES("1!2.0rc3.post4.dev5+x"), numbers, 16, room, sizeof room), numbers, room);
    show("version numbers", tubrambutan_version_numbers(BYTES("1.x"), numbers, 16, room, sizeof room), room);
}

/* Ranges of clauses, markers, and the shards of a list. */
static void ranges_markers_and_shards(void)
{
    uint8_t room[128] = {0};
    uint64_t numbers[4] = {0};

    show("ranges", tubrambutan_ranges(BYTES(">=1,!=1.5.*,<2"), room, sizeof room), room);
    show("ranges", tubrambutan_ranges(BYTES("<1,>2"), room, sizeof room), room);
    show("ranges", tubrambutan_ranges(BYTES("2"), room, sizeof room), room);
    show("within", tubrambutan_within(BYTES("~=1.5,!=1.6"), BYTES(">=1,<2"), room, sizeof room), room);
    show("within", tubrambutan_within(BYTES(">=1,<2"), BYTES("~=1.5"), room, sizeof room), room);
    show("within", tubrambutan_within(BYTES("===1.0"), BYTES(">=1,===1.0"), room, sizeof room), room);
    show("within", tubrambutan_within(BYTES("==1.0"), BYTES("===1.0"), room, sizeof room), room);
    show("within", tubrambutan_within(BYTES(">=1"), BYTES("1"), room, sizeof room), room);
    show("judge", tubrambutan_judge(BYTES(ENVIRONMENT), BYTES("python_version < '3.10'"), room, sizeof room), room);
    show("judge", tubrambutan_judge(BYTES(ENVIRONMENT), BYTES("os_name == 'nt'"), room, sizeof room), room);
    show("judge", tubrambutan_judge(BYTES(ENVIRONMENT), BYTES("os_name"), room, sizeof room), room);
    show("judge", tubrambutan_judge(BYTES(ENVIRONMENT), BYTES("os_name ~= 'a'"), room, sizeof room), room);
    show("judge", tubrambutan_judge(BYTES("x"), BYTES("os_name == 'nt'"), room, sizeof room), room);
    show_numbers("split", tubrambutan_split(BYTES("Flask>=2\n# why\nflask ; os_name=='nt'\nb"), 4, numbers, 4, room, sizeof room), numbers, room);
    show("split", tubrambutan_split(BYTES("flask\n>=1"), 2, numbers, 4, room, sizeof room), room);
}

/* As docs/CALLS.md has it. */
static void read_me(void)
{
    uint8_t room[64] = {0};
    tubrambutan_reply reply = tubrambutan_version((const uint8_t *)"1.0a-1", 6, room, sizeof room);
    if (reply.size <= sizeof room)
        printf("%.*s\n", (int)reply.size, (const char *)room); /* 1.0a1 */
}

/* Where the room is too small, the size is told and no byte of it changes. */
static void too_little_room(void)
{
    uint8_t room[4] = "abcd";
    tubrambutan_reply reply = tubrambutan_version(BYTES("1.0.post1"), room, sizeof room);

    printf("too little room: status %u, size %zu, %.4s\n", (unsigned)reply.status, reply.size, (const char *)room);
}

int main(void)
{
    merge_and_check();
    groups_and_questions();
    reasons();
    versions_and_clauses();
    parts_and_keys();
    ranges_markers_and_shards();
    read_me();
    too_little_room();
    return EXIT_SUCCESS;
}
