/* The proved keeper on the proved simulated machine, for C: libtevmalo.a, which `rt lib` makes of crates/tevmalo. */
#ifndef TEVMALO_H
#define TEVMALO_H

#include <stddef.h>
#include <stdint.h>

#ifdef __cplusplus
extern "C" {
#endif

/* A device: its group, and the program that may open it, both below 32. */
struct tevmalo_device {
    uint32_t group;
    uint32_t driver;
};

/* What the IOMMU keeps: upper tables, lower tables, pages; and pages by which accesses are under way. */
struct tevmalo_upper {
    uint32_t device;
    uint64_t table;
};

struct tevmalo_lower {
    uint32_t device;
    uint32_t slot;
    uint64_t table;
};

struct tevmalo_page {
    uint32_t device;
    uint32_t page;
    uint64_t entry;
};

/* An event of the log, or a line of a script. What is not named is 0.

   kind         event                      who      a       b       c      flag    reason  x
    0           a call is asked            program  as the call says
    1, 2, 3     it is told done, later,    program  as the call says               number
                no
    4           a word is loaded           program  place   word                           word
    5           a word is stored           program  place   word                           word
    6           nothing is shown           program  place
    7           registers are shown        program  place   device
    8           a device reads             device   page    frame   word                   word
    9           a device writes            device   page    frame   word                   word
    10          a device misses            device   page                    writes
    11          a drain                    device                           said yes

   call  0 get     1 free    2 give               3 open    4 close   5 regs            6 lend                  7 recall  8 end
   a     place     place     place                device    device    device            place                   place     program
   b                         program              -         -         place             device
   c                         that one's place                                           page
   flag                                                                                 1: to be written

   As a line: 0 a call, 4 load, 5 store, 8 `dev .. read`, 9 `dev .. write`, 12 keep, 13 `kept .. write` (a device's page in a, the word's
   number in c, the word in x), 14 `no x`, 15 `seed x`, 16 new. Any other kind is no line. */
struct tevmalo_row {
    uint32_t kind;
    uint32_t who;
    uint32_t call;
    uint32_t a;
    uint32_t b;
    uint32_t c;
    uint32_t flag;
    uint32_t reason;
    uint64_t x;
};

/* What is said of a line. kind: 0 nothing, 1 done, 2 later, 3 no (reason), 4 load (x), 5 stored, 6 fault, 7 poked, 8 took (x), 9 put,
   10 miss, 11 kept, 12 nothing to keep, 13 over, 14 the line of number x, counted from 1 in this call, is none. */
struct tevmalo_said {
    uint32_t kind;
    uint32_t reason;
    uint64_t x;
};

/* How many lines were read, how many events noted, and whether another machine is wanted: the last line was `new`. */
struct tevmalo_played {
    uint64_t lines;
    uint64_t events;
    uint32_t again;
};

/* Plays a script on a machine as at the start, up to the script's end or the first `new`. `memory` is 64 to 65,536 frames of 512 words,
   `room` at least 65,536 words and two for each frame, `log` at least 2,050 rows, and `said` has a row for each line feed of the script and
   one more. What the four slices of what the IOMMU keeps have no room for is not kept. What the slices hold before does not matter.

   0: it was played. `said` has a row for each line that was read, and the front of `log` the events, the earliest first.
   Otherwise nothing was played or written, and it is the first reason that applies:
   1 frames, 2 more than 32 devices, 3 a group or a driver, 4 log, 5 room, 6 said.

   Every pointer is not null, also where its length is 0. Slices that are written overlap no other. The call takes less than half a
   megabyte of stack, and no heap. */
uint32_t tevmalo_play(const struct tevmalo_device *devices, size_t devices_len,
                      uint64_t *memory, size_t memory_len,
                      uint64_t *room, size_t room_len,
                      struct tevmalo_upper *uppers, size_t uppers_len,
                      struct tevmalo_lower *lowers, size_t lowers_len,
                      struct tevmalo_page *pages, size_t pages_len,
                      struct tevmalo_page *accesses, size_t accesses_len,
                      struct tevmalo_row *log, size_t log_len,
                      const uint8_t *script, size_t script_len,
                      struct tevmalo_said *said, size_t said_len,
                      struct tevmalo_played *played);

/* The same for a script whose lines are rows; `said` has at least as many. */
uint32_t tevmalo_run(const struct tevmalo_device *devices, size_t devices_len,
                     uint64_t *memory, size_t memory_len,
                     uint64_t *room, size_t room_len,
                     struct tevmalo_upper *uppers, size_t uppers_len,
                     struct tevmalo_lower *lowers, size_t lowers_len,
                     struct tevmalo_page *pages, size_t pages_len,
                     struct tevmalo_page *accesses, size_t accesses_len,
                     struct tevmalo_row *log, size_t log_len,
                     const struct tevmalo_row *script, size_t script_len,
                     struct tevmalo_said *said, size_t said_len,
                     struct tevmalo_played *played);

#ifdef __cplusplus
}
#endif

#endif
