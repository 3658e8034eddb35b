/* fuzz SEED FILES IMAGES SECONDS [CASE] checks so many random files and images, or as many as it can in so many seconds (0:
   without end), one after the other. A CASE is f and the number of a file, or i and that of an image: it is checked alone. */
#include <signal.h>
#include <stdio.h>
#include <stdlib.h>
#include <string.h>
#include <time.h>
#include <unistd.h>

#include "check.h"

/* A case longer than this stands still. */
#define CASE_SECONDS 60

static uint8_t *file_room, *image_room;

static double now(void) {
    struct timespec time;
    clock_gettime(CLOCK_MONOTONIC, &time);
    return time.tv_sec + time.tv_nsec * 1e-9;
}

/* The random numbers of a case, the same whichever come before it. */
static struct random of_case(uint64_t seed, char kind, uint64_t number) {
    struct random random = {seed};
    random.state = next(&random) ^ kind;
    random.state = next(&random) + number;
    next(&random);
    return random;
}

static void check_case(uint64_t seed, char kind, uint64_t number) {
    struct random random = of_case(seed, kind, number);
    alarm(CASE_SECONDS);
    subject = (struct subject){.kind = kind, .seed = seed, .number = number, .call = "the generator"};
    if (kind == 'f') {
        struct bytes file = {file_room, 0};
        make_file(&random, &file);
        subject.bytes = file.at, subject.len = file.len;
        check_file(&random, &file);
    } else {
        struct header header = make_image(&random, image_room);
        subject.bytes = image_room, subject.len = pixel_count(header) * header.channels;
        check_image(&random, header, image_room);
    }
}

static void stopped(int signal) {
    /* The process ends here, whatever state it is in. */
    printf("fuzz: seed %llu, case %c%llu: %s: stopped by signal %d%s\n", subject.seed, subject.kind, subject.number,
           subject.call, signal, signal == SIGALRM ? ", it stood still" : "");
    fflush(stdout);
    _exit(1);
}

static void watch(void) {
    static const int signals[] = {SIGSEGV, SIGBUS, SIGILL, SIGFPE, SIGABRT, SIGTRAP, SIGALRM};
    for (size_t i = 0; i < sizeof signals / sizeof *signals; i++) signal(signals[i], stopped);
}

static int report(uint64_t seed, uint64_t files, uint64_t images, double seconds) {
    printf("fuzz: seed %llu: %llu files, %llu images in %.1f seconds, ", (unsigned long long)seed, (unsigned long long)files,
           (unsigned long long)images, seconds);
    if (differences) printf("%llu differences (%llu calls)\n", differences, calls);
    else printf("all as the model says (%llu calls)\n", calls);
    return differences > 0;
}

int main(int count, char **words) {
    if (count < 5) return 2;
    uint64_t seed = strtoull(words[1], NULL, 10), files = 0, images = 0;
    uint64_t most_files = strtoull(words[2], NULL, 10), most_images = strtoull(words[3], NULL, 10);
    double seconds = atof(words[4]), start = now();
    file_room = malloc(FILE_ROOM), image_room = malloc(4 * (size_t)IMAGE_PIXELS);
    watch();
    if (count > 5) {
        check_case(seed, words[5][0], strtoull(words[5] + 1, NULL, 10));
        return report(seed, words[5][0] == 'f', words[5][0] == 'i', now() - start);
    }
    while (files < most_files || images < most_images) {
        if ((files + images) % 64 == 0 && seconds > 0 && now() - start >= seconds) break;
        /* Files and images by turns, in the shares that were asked for. */
        if (files < most_files && (double)files * most_images <= (double)images * most_files) check_case(seed, 'f', files++);
        else if (images < most_images) check_case(seed, 'i', images++);
        else check_case(seed, 'f', files++);
        if (differences) break;
    }
    return report(seed, files, images, now() - start);
}
