/* Prepares, checks and plays the file that is named, on a square surface with the side that is given, and prints how
   many bytes of its stack the thread wrote that did so. */
#include <metaplay.h>
#include <pthread.h>
#include <stdio.h>
#include <stdlib.h>
#include <string.h>

enum { STACK = 1 << 20, MOST = 1 << 22, UNUSED = 0xa5, CALLS = 6 };

static uint8_t file[MOST], certificate[MOST], image[MOST];

static size_t file_length;

static uint32_t side;

static void *use_stack(void *outcomes)
{
    metaplay_sides sides;
    metaplay_rows rows = {side, side, side / 2, 1, 3 * side};
    metaplay_answer answers[CALLS];
    size_t made, at;

    answers[0] = metaplay_prepare(file, file_length, side, side, certificate, MOST);
    made = answers[0].length;
    answers[1] = metaplay_check(file, file_length, certificate, made);
    answers[2] = metaplay_play(file, file_length, certificate, made, side, side, image, MOST);
    answers[3] = metaplay_play_rows(file, file_length, certificate, made, &rows, image, MOST);
    answers[4] = metaplay_over(file, file_length, certificate, made, side, side, image, MOST);
    answers[5] = metaplay_fitted_sides(file, file_length, side, side, &sides);
    for (at = 0; at < CALLS; at++)
        ((uint32_t *)outcomes)[at] = answers[at].outcome;
    return NULL;
}

int main(int count, char **words)
{
    unsigned char *stack;
    uint32_t outcomes[CALLS];
    size_t at;
    pthread_attr_t attributes;
    pthread_t thread;
    size_t unused = 0;
    FILE *source = count == 3 ? fopen(words[1], "rb") : NULL;

    if (source == NULL || posix_memalign((void **)&stack, 4096, STACK) != 0)
        return 2;
    file_length = fread(file, 1, MOST, source);
    side = (uint32_t)strtoul(words[2], NULL, 10);
    memset(stack, UNUSED, STACK);
    if (pthread_attr_init(&attributes) != 0 || pthread_attr_setstack(&attributes, stack, STACK) != 0)
        return 2;
    if (pthread_create(&thread, &attributes, use_stack, outcomes) != 0 || pthread_join(thread, NULL) != 0)
        return 2;
    while (unused < STACK && stack[unused] == UNUSED)
        unused++;
    for (at = 0; at < CALLS; at++)
        printf("%lu ", (unsigned long)outcomes[at]);
    printf("%lu\n", (unsigned long)(STACK - unused));
    return 0;
}
