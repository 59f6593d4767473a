/*
 * metaplay: checks Windows metafiles (WMF, EMF), and plays those that pass.
 *
 * The functions are proved: they use only memory that they are given or allocate, free what they allocate, return, and
 * answer as is said here, for all bytes and numbers. Nothing checks what a caller does. This is assumed of it:
 *
 * - A pointer isn't null, not even where the length after it is 0.
 * - A pointer with a length leads to as many bytes as the length says. The caller may read them, and may also write
 *   those that aren't const.
 * - A length is below 2^63.
 * - A pointer to a struct is aligned for it.
 * - A buffer that a call writes, or the struct behind a pointer, overlaps nothing else that the call is given.
 * - Nothing changes what a running call reads: no thread, no process that shares the memory or writes a file that is
 *   mapped there, and no device. No other thread reads or writes what the call writes.
 * - A call returns before its caller goes on: it isn't left by `longjmp`, by an exception of the allocator, or by the
 *   cancelling of its thread.
 * - `malloc`, `realloc` and `free` are those of one allocator.
 * - `malloc` and `realloc` align a block to each power of two up to 16 that divides its size.
 * - A function isn't called from a signal handler.
 * - A function isn't called from the forked child of a process that had several threads.
 * - The thread's stack has 64 KiB left.
 * - The names of the functions mean these functions in the whole program.
 * - The system is Linux on x86-64, and the processor has SSE 4.2 (x86-64-v2).
 *
 * Calls may run at the same time in several threads. Nothing is kept from one call to the next.
 */
#ifndef METAPLAY_H
#define METAPLAY_H

#include <stdbool.h>
#include <stddef.h>
#include <stdint.h>

#ifdef __cplusplus
extern "C" {
#endif

/*
 * How a call ended. Only a call that is done changes a buffer or a struct. The padding of a struct that is answered may
 * have any bytes, so compare its fields.
 */
enum {
    /* It is done. */
    METAPLAY_DONE = 0,
    /* The file, the certificate or the size was rejected: `fault` says why. */
    METAPLAY_REJECTED = 1,
    /* The buffer is too short: `length` says how many bytes it must have. */
    METAPLAY_TOO_SHORT = 2,
    /* The allocator returned null. */
    METAPLAY_OUT_OF_MEMORY = 3,
    /* No fault has the code. */
    METAPLAY_NO_SUCH_FAULT = 4
};

/* What the print profile can allow. The report of `metaplay check` says which of these a file uses. */
enum {
    /* The deletion of an object that is selected: what is selected keeps its values. */
    METAPLAY_ALLOW_HELD_DELETION = 1,
    /* An EMF file that contains EMF+ and of whose own records none makes a drawing. */
    METAPLAY_ALLOW_EMF_PLUS = 2
};

/* The version of metaplay that this header is from. */
#define METAPLAY_VERSION_MAJOR 1
#define METAPLAY_VERSION_MINOR 1
#define METAPLAY_VERSION_PATCH 0

/* The greatest width and height of a surface, in pixels. The least is 1. */
#define METAPLAY_MOST_SIDE 8192

/* The length of the longest name of a fault. */
#define METAPLAY_MOST_NAME 16

/* The answer of a call. A number that has no meaning for its outcome is 0. */
typedef struct metaplay_answer {
    /* One of the outcomes above. */
    uint32_t outcome;
    /* If the call was rejected, the fault's code, from 1 to 48 (FAULTS.md). */
    uint32_t fault;
    /* If `has_record_number`, the number of the record that the fault lies in. The first record has number 0. */
    uint32_t record_number;
    /* If `has_record_kind`, the type (EMF) or the function (WMF) of the record that faults 14 and 15 refer to. */
    uint32_t record_kind;
    bool has_record_number;
    bool has_record_kind;
    /* How many bytes were written at the start of the buffer, or how many it must have. */
    size_t length;
} metaplay_answer;

/* The width and the height of a surface, in pixels. */
typedef struct metaplay_sides {
    uint32_t width;
    uint32_t height;
} metaplay_sides;

/*
 * Some rows of a surface, and where they lie in a buffer. Row 0 is at the top of the surface. In the buffer, the first of
 * these rows begins at the first byte, and each further one `stride` bytes after the row above.
 */
typedef struct metaplay_rows {
    /* The width and the height of the surface, in pixels. */
    uint32_t width;
    uint32_t height;
    /* The number of the first row, and how many rows there are: at least 1. All of them are rows of the surface. */
    uint32_t first;
    uint32_t count;
    /* At least 3 * width, in bytes. */
    uint32_t stride;
} metaplay_rows;

/* What a certificate says of every play. */
typedef struct metaplay_terms {
    /* The most pixels that a play writes. A pixel that is written twice counts twice. */
    uint64_t writes;
    /* The greatest width and height of a surface, in pixels. */
    uint32_t max_width;
    uint32_t max_height;
} metaplay_terms;

/*
 * Checks a certificate against a file. If it is accepted (METAPLAY_DONE), the file plays without a fault at every size
 * up to the certificate's bound, and writes at most the certified number of pixels (`metaplay_certificate_terms`). The
 * time of a play isn't certified: a file that is accepted can take hours (SECURITY.md).
 */
metaplay_answer metaplay_check(const uint8_t *file, size_t file_length, const uint8_t *certificate,
                               size_t certificate_length);

/*
 * Prepares the certificate of a file under the core profile for surfaces of at most this size, and copies it to the
 * start of `out`. It is accepted by `metaplay_check`. The width and the height must be from 1 to 8,192 (fault 8,
 * BadBound). To learn the length, call it with `out_length` 0; `out` isn't null even then.
 */
metaplay_answer metaplay_prepare(const uint8_t *file, size_t file_length, uint32_t width, uint32_t height,
                                 uint8_t *out, size_t out_length);

/*
 * The same under the print profile, for surfaces that are larger than the file's frame (README.md). `allowed` is the
 * sum of what is allowed, or 0; any other number is rejected (fault 8, BadBound). The certificate says the profile and
 * what is allowed, and `metaplay_check` and `metaplay_play` go by that.
 */
metaplay_answer metaplay_prepare_print(const uint8_t *file, size_t file_length, uint32_t allowed, uint32_t width,
                                       uint32_t height, uint8_t *out, size_t out_length);

/*
 * Checks a certificate against a file, plays the file on a white surface of this size, and writes the image to the
 * start of `out`: red, green and blue of each pixel, from the left, row by row from the top, without padding. It takes
 * 3 * width * height bytes. The picture is stretched to the surface; `metaplay_fitted_sides` finds sides that keep its
 * proportion. The file is played in bands, so beside `out` there is no second image in memory.
 *
 * The first of these decides: the width or the height isn't from 1 to 8,192 (fault 8, BadBound); `metaplay_check`
 * rejects the pair; the surface exceeds the certificate's bound (fault 42, SurfaceTooLarge); `out` is too short. The
 * check and the play both allocate memory, and an allocation that fails ends the call at once
 * (METAPLAY_OUT_OF_MEMORY).
 */
metaplay_answer metaplay_play(const uint8_t *file, size_t file_length, const uint8_t *certificate,
                              size_t certificate_length, uint32_t width, uint32_t height, uint8_t *out,
                              size_t out_length);

/*
 * Checks a certificate against a file, plays the file on some rows of a white surface, and writes these rows to `out`.
 * Each has the bytes that `metaplay_play` writes for it, and no byte between two rows changes. It takes stride *
 * (count - 1) + 3 * width bytes, and `length` is that number.
 *
 * An image can be played strip by strip in this way, in little memory, and its caller can stop after each strip. But each
 * call checks the certificate and goes through all records of the file again: once for the check, and once for each band
 * of at most 1,048,576 pixels. Beside `out`, a call takes memory for the pixels of one band or of one row, three bytes
 * for each and some padding, and what the certificate says that the file needs.
 *
 * The first of these decides: the width or the height isn't from 1 to 8,192, there is no row, a row is beyond the
 * surface, or the stride is too small (fault 8, BadBound); `metaplay_check` rejects the pair; the surface exceeds the
 * certificate's bound (fault 42, SurfaceTooLarge); `out` is too short.
 */
metaplay_answer metaplay_play_rows(const uint8_t *file, size_t file_length, const uint8_t *certificate,
                                   size_t certificate_length, const metaplay_rows *rows, uint8_t *out,
                                   size_t out_length);

/*
 * Checks a certificate against a file, and plays the file over an image of this size, whose samples are at the start of
 * `image`, as `metaplay_play` writes them. The result replaces them. Beside `image`, a second image is in memory: three
 * bytes per pixel, and some padding. What decides is the same as for `metaplay_play`.
 */
metaplay_answer metaplay_over(const uint8_t *file, size_t file_length, const uint8_t *certificate,
                              size_t certificate_length, uint32_t width, uint32_t height, uint8_t *image,
                              size_t image_length);

/*
 * Finds the largest sides within a width and a height that are in the proportion of the file's frame: one of them is
 * the width or the height that is given, and the other is rounded to the nearest, but at least 1. The width and the
 * height must be from 1 to 8,192 (fault 8, BadBound). What opening a file reads is read: the headers, and of a plain
 * WMF the records up to the first that sets the window's extent. No record is checked.
 */
metaplay_answer metaplay_fitted_sides(const uint8_t *file, size_t file_length, uint32_t width, uint32_t height,
                                      metaplay_sides *sides);

/*
 * Reads what a certificate says of every play. Only the certificate is read, and nothing is allocated: it holds for a
 * file if `metaplay_check` accepts the certificate for that file.
 */
metaplay_answer metaplay_certificate_terms(const uint8_t *certificate, size_t certificate_length,
                                           metaplay_terms *terms);

/*
 * Copies the name of the fault with this code, as in FAULTS.md, to the start of `out`. No zero byte follows it;
 * `length` is the name's. METAPLAY_MOST_NAME bytes are enough for each name.
 */
metaplay_answer metaplay_fault_name(uint32_t code, uint8_t *out, size_t out_length);

#ifdef __cplusplus
}
#endif

#endif
