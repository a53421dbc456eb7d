/* Runs RISC-V guests whose every access goes through the library: host BOOKING OLDER-BOOKING WEIGH ANNOUNCE MISBEHAVE [trace]. */
#include "accounts.h"

#include "guest/layout.h"

#include <string.h>

enum { GUESTS = 5, GUEST_MAX = 32768 };

static bool read_guest(const char *path, uint8_t *to, struct bytes *guest) {
    FILE *file = fopen(path, "rb");
    if (file == NULL) return perror(path), false;
    *guest = (struct bytes){to, fread(to, 1, GUEST_MAX, file)};
    fclose(file);
    return guest->length > 0;
}

static struct guest newer(struct bytes binary) {
    return (struct guest){binary, PROGRAM, HEKTHUMAR_NEWER};
}

int main(int argc, char **argv) {
    static uint8_t images[GUESTS][GUEST_MAX];
    struct bytes guests[GUESTS];
    if (argc < 1 + GUESTS) return fprintf(stderr, "usage: host BOOKING OLDER-BOOKING WEIGH ANNOUNCE MISBEHAVE [trace]\n"), 2;
    FILE *trace = argc > 1 + GUESTS && strcmp(argv[1 + GUESTS], "trace") == 0 ? stderr : NULL;
    for (int i = 0; i < GUESTS; i++)
        if (!read_guest(argv[1 + i], images[i], &guests[i])) return 2;
    bool good = run_editions(guests[0], guests[1], trace);
    good &= run_weighing(newer(guests[2]), trace);
    good &= run_announcing(newer(guests[3]), trace);
    good &= run_misbehaviours(newer(guests[4]), trace);
    puts(good ? "all as it must be" : "NOT as it must be");
    return good ? 0 : 1;
}
