/*
 * Shows a metafile: writes its image to standard output, as P6 (ppm(5)).
 *
 *     show FILE WIDTH HEIGHT [CERTIFICATE]
 *
 * Without a certificate, one is prepared for this size. The exit status is 0 if the image was written, 1 if the file,
 * the certificate or the size is rejected, 2 for wrong usage, 3 if an input or the output fails, and 4 if memory runs
 * out. If the library is installed, this builds it:
 *
 *     cc show.c $(pkg-config --cflags --libs metaplay) -o show
 */
#include <limits.h>
#include <metaplay.h>
#include <stdio.h>
#include <stdlib.h>

/* Bytes in memory. */
typedef struct {
    uint8_t *bytes;
    size_t length;
} block;

/* Ends the program with a line on standard error. */
static void fail(int status, const char *reason)
{
    fprintf(stderr, "show: %s\n", reason);
    exit(status);
}

/* Ends the program with the name of a fault, and the record that it lies in. */
static void reject(metaplay_answer answer)
{
    uint8_t name[METAPLAY_MOST_NAME];
    metaplay_answer named = metaplay_fault_name(answer.fault, name, sizeof name);

    fprintf(stderr, "show: %.*s", (int)named.length, (const char *)name);
    if (answer.has_record_kind)
        fprintf(stderr, " %lu", (unsigned long)answer.record_kind);
    if (answer.has_record_number)
        fprintf(stderr, " at record %lu", (unsigned long)answer.record_number);
    fprintf(stderr, "\n");
    exit(1);
}

/* Ends the program unless the call is done. */
static void demand(metaplay_answer answer)
{
    if (answer.outcome == METAPLAY_REJECTED)
        reject(answer);
    if (answer.outcome != METAPLAY_DONE)
        fail(4, "out of memory");
}

/* A block of this length, which may be 0. */
static block allocate(size_t length)
{
    block made = {malloc(length > 0 ? length : 1), length};

    if (made.bytes == NULL)
        fail(4, "out of memory");
    return made;
}

/* All bytes of a file. */
static block read_file(const char *name)
{
    FILE *file = fopen(name, "rb");
    long length = -1;
    block read;

    if (file != NULL && fseek(file, 0, SEEK_END) == 0)
        length = ftell(file);
    /* A folder can be opened, and says that it is as long as can be. */
    if (length < 0 || length == LONG_MAX)
        fail(3, "cannot read");
    rewind(file);
    read = allocate((size_t)length);
    if (fread(read.bytes, 1, read.length, file) != read.length)
        fail(3, "cannot read");
    fclose(file);
    return read;
}

/* The certificate of a file for surfaces of this size: a first call finds its length. */
static block prepare(block file, uint32_t width, uint32_t height)
{
    uint8_t none[1];
    metaplay_answer answer = metaplay_prepare(file.bytes, file.length, width, height, none, 0);
    block certificate;

    if (answer.outcome != METAPLAY_TOO_SHORT)
        demand(answer);
    certificate = allocate(answer.length);
    demand(metaplay_prepare(file.bytes, file.length, width, height, certificate.bytes, certificate.length));
    return certificate;
}

/* A side of the surface. */
static uint32_t read_side(const char *text)
{
    char *end;
    unsigned long side = strtoul(text, &end, 10);

    if (*text < '0' || *text > '9' || *end != '\0' || side < 1 || side > METAPLAY_MOST_SIDE)
        fail(2, "a side is a number from 1 to 8192");
    return (uint32_t)side;
}

int main(int count, char **words)
{
    uint32_t width, height;
    block file, certificate, image;

    if (count != 4 && count != 5)
        fail(2, "usage: show FILE WIDTH HEIGHT [CERTIFICATE]");
    width = read_side(words[2]);
    height = read_side(words[3]);
    file = read_file(words[1]);
    certificate = count == 5 ? read_file(words[4]) : prepare(file, width, height);
    image = allocate((size_t)3 * width * height);
    demand(metaplay_play(file.bytes, file.length, certificate.bytes, certificate.length, width, height, image.bytes,
                         image.length));
    printf("P6\n%lu %lu\n255\n", (unsigned long)width, (unsigned long)height);
    if (fwrite(image.bytes, 1, image.length, stdout) != image.length || fflush(stdout) != 0)
        fail(3, "cannot write");
    free(image.bytes);
    free(certificate.bytes);
    free(file.bytes);
    return 0;
}
