/* Plays a metafile by the GDI of Windows, onto white, and writes the picture as P6: the work of `metaplay show`.
 *
 *     gdi.exe FILE WIDTH HEIGHT
 *
 * A placeable WMF has its box on the whole surface, and an EMF its frame.
 */

#include <fcntl.h>
#include <io.h>
#include <stdio.h>
#include <stdlib.h>
#include <string.h>
#include <windows.h>

/* How many pixels are written at a time. */
#define PIECE 16384

/* META_PLACEABLE: how it begins, how long it is, and where its box stands. */
#define KEY 0x9AC6CDD7u
#define PLACEABLE 22
#define BOX 6

static void stop(const char *why)
{
    fprintf(stderr, "gdi: %s\n", why);
    exit(1);
}

/* The bytes of a file, and how many. */
static BYTE *bytes_of(const char *path, UINT *size)
{
    FILE *file = fopen(path, "rb");
    if (!file || fseek(file, 0, SEEK_END) != 0)
        stop("cannot read");
    *size = (UINT)ftell(file);
    rewind(file);
    BYTE *bytes = malloc(*size + 1);
    if (!bytes || fread(bytes, 1, *size, file) != *size)
        stop("cannot read");
    fclose(file);
    return bytes;
}

/* Plays a placeable WMF: its box is the window, and the surface the viewport. */
static BOOL play_placeable(HDC dc, const BYTE *bytes, UINT size, int width, int height)
{
    SHORT box[4];
    memcpy(box, bytes + BOX, sizeof box);
    HMETAFILE file = SetMetaFileBitsEx(size - PLACEABLE, bytes + PLACEABLE);
    SetMapMode(dc, MM_ANISOTROPIC);
    SetWindowOrgEx(dc, box[0], box[1], NULL);
    SetWindowExtEx(dc, box[2] - box[0], box[3] - box[1], NULL);
    SetViewportExtEx(dc, width, height, NULL);
    return file && PlayMetaFile(dc, file);
}

/* Plays an EMF on the whole surface. */
static BOOL play_enhanced(HDC dc, const BYTE *bytes, UINT size, int width, int height)
{
    RECT whole = {0, 0, width, height};
    HENHMETAFILE file = SetEnhMetaFileBits(size, bytes);
    return file && PlayEnhMetaFile(dc, file, &whole);
}

/* Writes pixels of four bytes, blue first, as three of red, green and blue. */
static void write_picture(const BYTE *pixels, int width, int height)
{
    static BYTE piece[3 * PIECE];
    size_t count = (size_t)width * height;
    _setmode(_fileno(stdout), _O_BINARY);
    printf("P6\n%d %d\n255\n", width, height);
    fflush(stdout);
    for (size_t at = 0; at < count; at += PIECE) {
        size_t some = count - at < PIECE ? count - at : PIECE;
        for (size_t k = 0; k < some; k++) {
            piece[3 * k] = pixels[4 * (at + k) + 2];
            piece[3 * k + 1] = pixels[4 * (at + k) + 1];
            piece[3 * k + 2] = pixels[4 * (at + k)];
        }
        if (_write(_fileno(stdout), piece, (unsigned)(3 * some)) != (int)(3 * some))
            stop("cannot write");
    }
}

int main(int count, char **words)
{
    int width = count == 4 ? atoi(words[2]) : 0, height = count == 4 ? atoi(words[3]) : 0;
    if (width < 1 || height < 1)
        stop("usage: gdi.exe FILE WIDTH HEIGHT");
    UINT size, key = 0;
    BYTE *bytes = bytes_of(words[1], &size);
    if (size > PLACEABLE)
        memcpy(&key, bytes, sizeof key);

    BITMAPINFO info = {{sizeof(BITMAPINFOHEADER), width, -height, 1, 32, BI_RGB}};
    void *pixels;
    HDC dc = CreateCompatibleDC(NULL);
    HBITMAP bitmap = CreateDIBSection(dc, &info, DIB_RGB_COLORS, &pixels, NULL, 0);
    if (!bitmap || !SelectObject(dc, bitmap) || !PatBlt(dc, 0, 0, width, height, WHITENESS))
        stop("no surface");
    if (!(key == KEY ? play_placeable : play_enhanced)(dc, bytes, size, width, height))
        stop("cannot play");
    GdiFlush();
    write_picture(pixels, width, height);
    return 0;
}
