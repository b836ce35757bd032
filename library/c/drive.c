/* Loads a street, places a detector, has three vehicles enter, drives a minute, and reads the detector. */
#include "../streetsim.h"
#include <stdio.h>
#include <string.h>

static unsigned char room[1 << 16];

/* Sends a line and prints its reply. Whether the command was done: a refusal is a reply that begins with {"error": or {"at":, and one that
 * says {"starved":true} may be sent again. */
static int say(struct streetsim_session *session, const char *line) {
    size_t bytes = 0;
    uint32_t status = streetsim_line(session, (const unsigned char *)line, strlen(line), room, sizeof room, &bytes);
    if (status == STREETSIM_DONE)
        fwrite(room, 1, bytes, stdout);
    return status == STREETSIM_DONE && memcmp(room, "{\"error\"", 8) && memcmp(room, "{\"at\"", 5) && memcmp(room, "{\"starved\"", 10);
}

int main(void) {
    struct streetsim_session session = {0};
    uint64_t plan[] = {10, 20}, car = 0, clock = 0;
    struct streetsim_census census = {0};
    if (streetsim_open(&session) != STREETSIM_DONE)
        return 1;
    if (!say(&session, "{\"cmd\":\"load\",\"nodes\":[[1,1,4],[2,1,4],[3,1,4]],"
                       "\"links\":[[10,1,2,1,40,3],[20,2,3,1,40,3]],\"turns\":[[10,0,20,0]],"
                       "\"zone\":0,\"dawdle\":0,\"change\":0,\"seed\":0,\"start\":0}") ||
        !say(&session, "{\"cmd\":\"meter\",\"link\":20,\"lane\":0,\"cell\":5,\"period\":60}"))
        return 2;
    for (uint64_t second = 0; second < 3; second++)
        if (streetsim_enter(&session, plan, 2, 0, 4 * second, 1, &car) != STREETSIM_DONE)
            return 3;
    if (streetsim_advance(&session, 60, &clock) != STREETSIM_DONE || streetsim_count(&session, &census) != STREETSIM_DONE)
        return 4;
    printf("clock %llu: %llu of %llu arrived\n", (unsigned long long)clock, (unsigned long long)census.arrived,
           (unsigned long long)census.admitted);
    struct streetsim_running running = {0};
    struct streetsim_row rows[32] = {{0}};
    size_t count = 0;
    if (streetsim_read(&session, 0, &running, rows, 32, &count) != STREETSIM_DONE)
        return 5;
    for (size_t at = 0; at < count; at++)
        printf("from %llu: %llu passed, on the cell in %llu steps\n", (unsigned long long)rows[at].start,
               (unsigned long long)rows[at].passes, (unsigned long long)rows[at].occupied);
    streetsim_close(&session);
    return 0;
}
