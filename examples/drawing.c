/*
 * From a drawing program and back: imports the outline of a pocket as such a
 * program writes it, looks where a track crosses it, exports it again, and shows
 * what is told if a line of the drawing is wrong. From the repository's root:
 *
 *   tools/make capi
 *   cc -std=c11 -Wall -Wextra -Werror -Iinclude examples/drawing.c \
 *      target/staticlib/libcapi.a -o drawing && ./drawing
 */
#include <inttypes.h>
#include <stdio.h>
#include <string.h>

#include "vonjekona.h"

#define COUNT(a) (sizeof(a) / sizeof(a)[0])

#define VERTICES 16
#define ROWS 16
#define EPSILON (1.0 / 1024.0)

/*
 * The body of an LWPOLYLINE: four vertices, closed, two half circles. Layer,
 * colour, width and so on are skipped.
 */
static const char pocket[] =
    "  0\nLWPOLYLINE\n  5\n30\n100\nAcDbEntity\n  8\nCUT\n 62\n     3\n"
    "100\nAcDbPolyline\n 90\n        4\n 70\n     1\n 43\n0.0\n"
    " 10\n10.0\n 20\n10.0\n"
    " 10\n40.25\n 20\n10.0\n 42\n1.0\n"
    " 10\n40.25\n 20\n14.5\n"
    " 10\n10.0\n 20\n14.5\n 42\n1.0\n";

/* A track across it, open: x, y, bulge and trace of each vertex. */
static const double track[] = {
    0, 0, 0, 0,  20, 12, 0, 0,  20, 30, 0, 0,
};

/* Bodies with a line that is wrong, or with too little. */
static const struct {
    const char *what, *body;
} wrong[] = {
    { "a seventh digit", "90\n1\n70\n0\n10\n0.1234567\n20\n0\n" },
    { "a carriage return", "90\r\n1\r\n70\r\n0\r\n" },
    { "y before x", "90\n1\n70\n0\n20\n0\n10\n0\n" },
    { "no y", "90\n1\n70\n0\n10\n0\n" },
    { "a vertex too few", "90\n2\n70\n0\n10\n0\n20\n0\n" },
    { "a bulge above 1", "90\n1\n70\n0\n10\n0\n20\n0\n42\n1.5\n" },
};

/* By the refusal's number. Those of an import and of an export. */
static const char *reason(uint64_t number)
{
    switch (number) {
    case 2: return "above 1,048,576 in magnitude";
    case 3: return "above 1 in magnitude";
    case 5: return "shorter than 2^-40, of an arc";
    case 6: return "no multiple of 4";
    case 7: return "more than 4,096 vertices";
    case 11: return "NaN";
    case 12: return "infinite";
    case 15: return "no whole number from 0 to 255";
    case 20: return "no code, or no number";
    case 21: return "a group out of place, or missing";
    case 22: return "not as many vertices as it says";
    case 23: return "no number of six digits";
    case 24: return "too little";
    default: return "no reason that these calls have";
    }
}

/* What is at fault. */
static const char *name(uint64_t item)
{
    switch (item) {
    case VJ_ITEM_X: return "x of vertex";
    case VJ_ITEM_Y: return "y of vertex";
    case VJ_ITEM_BULGE: return "bulge of vertex";
    case VJ_ITEM_CHORD: return "segment";
    case VJ_ITEM_LENGTH: return "length";
    case VJ_ITEM_TRACE: return "trace of vertex";
    case VJ_ITEM_LINE: return "line";
    case VJ_ITEM_ROOM: return "room";
    default: return "no item that these calls have";
    }
}

/* What a call returned, in words. */
static void tell(const char *what, uint64_t word)
{
    printf("%s: ", what);
    if (word == VJ_NO_ROOM)
        printf("no room for what is told\n");
    else if (!VJ_IS_REFUSED(word))
        printf("done\n");
    else if (VJ_ITEM(word) == VJ_ITEM_ROOM || VJ_ITEM(word) == VJ_ITEM_LENGTH)
        printf("refused %" PRIu64 ", %s: %s\n", VJ_NUMBER(word),
               name(VJ_ITEM(word)), reason(VJ_NUMBER(word)));
    else
        printf("refused %" PRIu64 ", %s %" PRIu64 ": %s\n", VJ_NUMBER(word),
               name(VJ_ITEM(word)), VJ_INDEX(word),
               reason(VJ_NUMBER(word)));
}

static uint64_t import(const char *body, double *path, size_t room,
                       uint64_t *told)
{
    return vj_dxf_import((const uint8_t *)body, strlen(body), path, room, told,
                         2);
}

int main(void)
{
    double path[4 * VERTICES], points[4 * ROWS];
    uint64_t told[2], bytes[1], indices[3 * ROWS], counts[2];
    uint8_t text[VJ_DXF_BYTES(VERTICES)];
    size_t i, numbers;

    tell("the pocket", import(pocket, path, COUNT(path), told));
    numbers = 4 * told[0];
    printf("%" PRIu64 " vertices, %s\n", told[0],
           told[1] ? "closed" : "open");
    for (i = 0; i < numbers; i += 4)
        printf("  %g %g, bulge %g, trace %g\n", path[i], path[i + 1],
               path[i + 2], path[i + 3]);

    tell("the track and the pocket",
         vj_mutual(track, COUNT(track), false, path, numbers, told[1] == 1,
                   EPSILON, indices, COUNT(indices), points, COUNT(points),
                   counts, COUNT(counts)));
    for (i = 0; i < counts[0]; i++)
        printf("  segment %" PRIu64 " and segment %" PRIu64 ", at %g %g\n",
               indices[3 * i], indices[3 * i + 1], points[4 * i],
               points[4 * i + 1]);

    /* only the five groups are written, and 42 always */
    tell("the pocket again",
         vj_dxf_export(path, numbers, told[1] == 1, text, sizeof text, bytes,
                       COUNT(bytes)));
    printf("%" PRIu64 " bytes:\n", bytes[0]);
    fwrite(text, 1, bytes[0], stdout);

    for (i = 0; i < COUNT(wrong); i++)
        tell(wrong[i].what, import(wrong[i].body, path, COUNT(path), told));
    tell("the pocket, room for three vertices",
         import(pocket, path, 12, told));

    /* a bulge of 1/128 has seven digits; rounded it has six */
    import(pocket, path, COUNT(path), told);
    path[2] = 1.0 / 128.0;
    tell("a bulge of 1/128",
         vj_dxf_export(path, numbers, true, text, sizeof text, bytes, 1));
    path[2] = 0.007813;
    tell("a bulge of 0.007813",
         vj_dxf_export(path, numbers, true, text, sizeof text, bytes, 1));
    tell("the same, and no room",
         vj_dxf_export(path, numbers, true, text, 100, bytes, 1));
    return 0;
}
