/* Plays a short night from C: prints what is said of each line, as numbers. rust/test compiles and runs it. */
#include "tevmalo.h"
#include <stdio.h>
#include <string.h>

enum { FRAMES = 64, EVENTS = 4096 };

static uint64_t memory[512 * FRAMES];
static uint64_t room[65536 + 2 * FRAMES];
static struct tevmalo_upper uppers[FRAMES];
static struct tevmalo_lower lowers[FRAMES];
static struct tevmalo_page pages[FRAMES];
static struct tevmalo_page accesses[FRAMES];
static struct tevmalo_row events[EVENTS];
static struct tevmalo_said said[16];

int main(void) {
    const struct tevmalo_device camera = {0, 1};
    const char *script = "1 open 0\n1 get 5\n1 lend 5 0 700 w\ndev 0 write 700 0 4242\n1 load 5 0\n1 recall 9\nx\n";
    struct tevmalo_played played;
    uint32_t status = tevmalo_play(&camera, 1, memory, 512 * FRAMES, room, 65536 + 2 * FRAMES, uppers, FRAMES, lowers, FRAMES, pages,
                                   FRAMES, accesses, FRAMES, events, EVENTS, (const uint8_t *)script, strlen(script), said, 16, &played);
    if (status != 0) {
        printf("refused by %u\n", status);
        return 1;
    }
    for (uint64_t i = 0; i < played.lines; i++) {
        printf("%u %u %llu\n", said[i].kind, said[i].reason, (unsigned long long)said[i].x);
    }
    printf("%llu events\n", (unsigned long long)played.events);
    return 0;
}
