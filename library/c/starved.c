/* Refuses each request for memory of a session in turn: what was not done is asked for again, and all replies are as with memory to spare.
 * Link with -Wl,--wrap=malloc,--wrap=realloc. Prints how many requests were refused, and exits with the number of what is wrong. */
#include "../streetsim.h"
#include <stdio.h>
#include <stdlib.h>
#include <string.h>

static long countdown = -1, asked = 0; /* the request that is refused, -1 for none; how many there were */

void *__real_malloc(size_t bytes);
void *__real_realloc(void *block, size_t bytes);

static bool refuses(void) {
    asked++;
    return countdown >= 0 && countdown-- == 0;
}

void *__wrap_malloc(size_t bytes) {
    return refuses() ? NULL : __real_malloc(bytes);
}

void *__wrap_realloc(void *block, size_t bytes) {
    return refuses() ? NULL : __real_realloc(block, bytes);
}

static const char *LINES[] = {
    "{\"cmd\":\"load\",\"nodes\":[[1,1,4],[2,1,4],[3,1,4]],\"links\":[[10,1,2,1,40,3],[20,2,3,1,40,3]],"
    "\"turns\":[[10,0,20,0]],\"zone\":0,\"dawdle\":100,\"change\":0,\"seed\":7,\"start\":0}",
    "{\"cmd\":\"meter\",\"link\":20,\"lane\":0,\"cell\":5,\"period\":5}",
    "{\"cmd\":\"enter\",\"plan\":[10,20],\"lane\":0,\"depart\":0}",
    "{\"cmd\":\"enter\",\"plan\":[10,20],\"lane\":0,\"depart\":2}",
    "{\"cmd\":\"signal\",\"node\":2,\"offset\":1,\"phases\":[[3,[[10,0,20]]],[2,[]]]}",
    "{\"cmd\":\"advance\",\"steps\":20}",
    "{\"cmd\":\"lane\",\"link\":20,\"lane\":0}",
    "{\"cmd\":\"read\",\"meter\":0}",
    "{\"cmd\":\"vehicle\",\"car\":1}",
    "no line",
    "{\"cmd\":\"count\"}",
};
enum { MANY = sizeof LINES / sizeof *LINES };

/* The reply to a line; where memory was refused, the line's own reply after it was asked for again. */
static size_t say(struct streetsim_session *session, const char *line, unsigned char *room, size_t most) {
    size_t bytes = 0;
    for (int times = 0; times < 3; times++) {
        uint32_t status = streetsim_line(session, (const unsigned char *)line, strlen(line), room, most, &bytes);
        while (status == STREETSIM_UNTOLD)
            status = streetsim_reply(session, room, most, &bytes);
        bool starved = status == STREETSIM_STARVED || (status == STREETSIM_DONE && strstr((char *)room, "\"starved\""));
        if (status == STREETSIM_DONE && !starved)
            return bytes;
        if (!starved)
            exit(3);
        memset(room, 0, most);
    }
    exit(4);
}

static size_t session_of(unsigned char *text, size_t most, long refused) {
    static unsigned char room[1 << 14];
    struct streetsim_session session = {0};
    size_t size = 0;
    asked = 0;
    countdown = refused;
    while (streetsim_open(&session) == STREETSIM_STARVED)
        ;
    for (int at = 0; at < MANY; at++) {
        memset(room, 0, sizeof room);
        size_t bytes = say(&session, LINES[at], room, sizeof room);
        /* An advance that stopped short is finished: its replies together say less than whole ones, so it is told as its clock. */
        char *left = strstr((char *)room, "\"short\":");
        if (left) {
            char rest[64];
            snprintf(rest, sizeof rest, "{\"cmd\":\"advance\",\"steps\":%ld}", 20 - atol(left + 8));
            memset(room, 0, sizeof room);
            bytes = say(&session, rest, room, sizeof room);
        }
        if (size + bytes > most)
            exit(5);
        memcpy(text + size, room, bytes);
        size += bytes;
    }
    streetsim_close(&session);
    return size;
}

int main(void) {
    static unsigned char whole[1 << 16], text[1 << 16];
    size_t size = session_of(whole, sizeof whole, -1);
    long requests = asked;
    for (long refused = 0; refused < requests; refused++)
        if (session_of(text, sizeof text, refused) != size || memcmp(whole, text, size)) {
            fprintf(stderr, "request %ld refused: other replies\n", refused);
            return 2;
        }
    printf("each of %ld requests refused in turn: the same %zu bytes of replies\n", requests, size);
    return 0;
}
