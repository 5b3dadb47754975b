/* A page as a TIFF file in memory: one strip, CCITT Group 3, one-dimensional. */
#include <stddef.h>
#include <stdint.h>
#include <stdio.h>
#include <string.h>
#include <tiffio.h>

/* The file: `length` bytes of `capacity`, and the place where the next are read or written. */
struct memory {
    uint8_t *bytes;
    size_t length, capacity, at;
};

static tmsize_t get(thandle_t handle, void *to, tmsize_t size)
{
    struct memory *file = handle;
    size_t left = file->at < file->length ? file->length - file->at : 0;
    size_t count = (size_t)size < left ? (size_t)size : left;
    memcpy(to, file->bytes + file->at, count);
    file->at += count;
    return (tmsize_t)count;
}

static tmsize_t put(thandle_t handle, void *from, tmsize_t size)
{
    struct memory *file = handle;
    if (file->at > file->capacity || (size_t)size > file->capacity - file->at)
        return -1;
    memcpy(file->bytes + file->at, from, (size_t)size);
    file->at += (size_t)size;
    if (file->length < file->at)
        file->length = file->at;
    return size;
}

static toff_t seek(thandle_t handle, toff_t offset, int whence)
{
    struct memory *file = handle;
    size_t base = whence == SEEK_END ? file->length : whence == SEEK_CUR ? file->at : 0;
    file->at = base + (size_t)offset;
    return file->at;
}

static int finish(thandle_t handle)
{
    (void)handle;
    return 0;
}

static toff_t size(thandle_t handle)
{
    return ((struct memory *)handle)->length;
}

static int map(thandle_t handle, void **base, toff_t *length)
{
    struct memory *file = handle;
    *base = file->bytes;
    *length = file->length;
    return 1;
}

static void unmap(thandle_t handle, void *base, toff_t length)
{
    (void)handle, (void)base, (void)length;
}

static TIFF *open_memory(struct memory *file, const char *mode)
{
    return TIFFClientOpen("memory", mode, file, get, put, seek, finish, size, map, unmap);
}

/* Writes rows of (width + 7) / 8 bytes, one bit a dot, black is 1. Answers the file's length, or 0
   where it does not fit or libtiff fails. */
size_t bench_tiff_write(uint8_t *rows, uint32_t width, uint32_t height, uint8_t *out, size_t room)
{
    struct memory file = {.bytes = out, .capacity = room};
    TIFF *tiff = open_memory(&file, "w");
    if (!tiff)
        return 0;
    int right = TIFFSetField(tiff, TIFFTAG_IMAGEWIDTH, width) &&
                TIFFSetField(tiff, TIFFTAG_IMAGELENGTH, height) &&
                TIFFSetField(tiff, TIFFTAG_BITSPERSAMPLE, 1) &&
                TIFFSetField(tiff, TIFFTAG_SAMPLESPERPIXEL, 1) &&
                TIFFSetField(tiff, TIFFTAG_FILLORDER, FILLORDER_MSB2LSB) &&
                TIFFSetField(tiff, TIFFTAG_PHOTOMETRIC, PHOTOMETRIC_MINISWHITE) &&
                TIFFSetField(tiff, TIFFTAG_ROWSPERSTRIP, height) &&
                TIFFSetField(tiff, TIFFTAG_COMPRESSION, COMPRESSION_CCITTFAX3) &&
                TIFFSetField(tiff, TIFFTAG_GROUP3OPTIONS, 0);
    size_t stride = ((size_t)width + 7) / 8;
    for (uint32_t y = 0; right && y < height; y++)
        right = TIFFWriteScanline(tiff, rows + y * stride, y, 0) == 1;
    right = right && TIFFFlush(tiff);
    TIFFClose(tiff);
    return right ? file.length : 0;
}

/* Reads such a file into rows of (width + 7) / 8 bytes. Answers 0 where it is not of this size or
   libtiff fails. */
int bench_tiff_read(uint8_t *bytes, size_t length, uint32_t width, uint32_t height, uint8_t *rows)
{
    struct memory file = {.bytes = bytes, .length = length, .capacity = length};
    TIFF *tiff = open_memory(&file, "r");
    if (!tiff)
        return 0;
    uint32_t told_width = 0, told_height = 0;
    size_t stride = ((size_t)width + 7) / 8;
    int right = TIFFGetField(tiff, TIFFTAG_IMAGEWIDTH, &told_width) && told_width == width &&
                TIFFGetField(tiff, TIFFTAG_IMAGELENGTH, &told_height) && told_height == height &&
                TIFFScanlineSize(tiff) == (tmsize_t)stride;
    for (uint32_t y = 0; right && y < height; y++)
        right = TIFFReadScanline(tiff, rows + y * stride, y, 0) == 1;
    TIFFClose(tiff);
    return right;
}
