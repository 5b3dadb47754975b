/* Pages of 1-bit dots drawn by pixman. The bits are cleared here, as a draw clears its band. */
#include <pixman.h>
#include <stddef.h>
#include <stdint.h>
#include <string.h>

_Static_assert(sizeof(pixman_trapezoid_t) == 10 * sizeof(int32_t), "a trapezoid is ten numbers");

/* Rectangles of four numbers: x, y, width, height, all within the page. pixman_fill clips nothing.
   `stride` counts words. Answers 0 where pixman refuses. */
int bench_pixman_rectangles(uint32_t *bits, int stride, int height, const int32_t (*list)[4],
                            size_t count)
{
    memset(bits, 0, (size_t)stride * (size_t)height * sizeof *bits);
    for (size_t i = 0; i < count; i++) {
        const int32_t *r = list[i];
        if (!pixman_fill(bits, stride, 1, r[0], r[1], r[2], r[3], 1))
            return 0;
    }
    return 1;
}

/* Trapezoids in 16.16 fixed point. Answers 0 where pixman refuses. */
int bench_pixman_trapezoids(uint32_t *bits, int stride, int width, int height,
                            const pixman_trapezoid_t *list, size_t count)
{
    memset(bits, 0, (size_t)stride * (size_t)height * sizeof *bits);
    pixman_image_t *image =
        pixman_image_create_bits_no_clear(PIXMAN_a1, width, height, bits, stride * (int)sizeof *bits);
    if (!image)
        return 0;
    for (size_t i = 0; i < count; i++)
        pixman_rasterize_trapezoid(image, &list[i], 0, 0);
    pixman_image_unref(image);
    return 1;
}
