/* The calls of pixman that drawing.c and settings.c make, for machines with the library and without its header. */
#include <stdint.h>

typedef union pixman_image pixman_image_t;

typedef struct {
    uint16_t red, green, blue, alpha;
} pixman_color_t;

typedef struct {
    int32_t x1, y1, x2, y2;
} pixman_box32_t;

typedef enum { PIXMAN_OP_SRC = 1, PIXMAN_OP_OVER = 3 } pixman_op_t;

/* bits of a pixel, kind (1: alpha, 2: ARGB), and the bits of alpha, red, green and blue */
#define FORMAT(bits, kind, a, r, g, b) ((bits) << 24 | (kind) << 16 | (a) << 12 | (r) << 8 | (g) << 4 | (b))

typedef enum {
    PIXMAN_r5g6b5 = FORMAT(16, 2, 0, 5, 6, 5),
    PIXMAN_a8 = FORMAT(8, 1, 8, 0, 0, 0),
    PIXMAN_a1 = FORMAT(1, 1, 1, 0, 0, 0)
} pixman_format_code_t;

pixman_image_t *pixman_image_create_bits(pixman_format_code_t, int, int, uint32_t *, int);
pixman_image_t *pixman_image_create_solid_fill(const pixman_color_t *);
int pixman_image_unref(pixman_image_t *);
int pixman_image_fill_boxes(pixman_op_t, pixman_image_t *, const pixman_color_t *, int, const pixman_box32_t *);
void pixman_image_composite32(pixman_op_t, pixman_image_t *, pixman_image_t *, pixman_image_t *, int32_t, int32_t,
                              int32_t, int32_t, int32_t, int32_t, int32_t, int32_t);
