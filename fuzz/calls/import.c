/* vj_dxf_import and vj_dxf_import_large; what is accepted is exported and comes back. */
#include <math.h>
#include <string.h>

#include "../faults.h"
#include "../lent.h"
#include "../must.h"
#include "../one.h"
#include "../take.h"
#include "vonjekona.h"

#define MOST_TEXT (1 << 20)

static struct lent text, path, told;
static uint8_t back[VJ_DXF_BYTES_LARGE(4096)];
static double again[4 * 4096];

void begin(void)
{
    text = lent_new(MOST_TEXT);
    path = lent_new(8 * 4 * 4096 + 64);
    told = lent_new(64);
}

static uint64_t import(bool large, const uint8_t *from, size_t len, double *to,
                       size_t room, uint64_t *words, size_t words_room)
{
    return (large ? vj_dxf_import_large : vj_dxf_import)(from, len, to, room,
                                                         words, words_room);
}

/* Which item stands with each number, and that the index is within the text. */
static void must_be_refusal(uint64_t word, size_t len)
{
    uint64_t number = VJ_NUMBER(word), item = VJ_ITEM(word);

    MUST(VJ_IS_REFUSED(word) && VJ_OWNER(word) == 0);
    MUST(VJ_INDEX(word) <= len + 1);
    switch (number) {
    case 20: case 21: case 22:
        MUST(item == VJ_ITEM_LINE && VJ_INDEX(word) >= 1);
        break;
    case 7:
        MUST(item == VJ_ITEM_LENGTH && VJ_INDEX(word) == 0);
        break;
    case 2:
        MUST(item == VJ_ITEM_X || item == VJ_ITEM_Y ||
             item == VJ_ITEM_CUT_X || item == VJ_ITEM_CUT_Y);
        break;
    case 3:
        MUST(item == VJ_ITEM_BULGE);
        break;
    case 5:
        MUST(item == VJ_ITEM_CHORD);
        break;
    default:
        MUST(number == 24 && item == VJ_ITEM_ROOM && VJ_INDEX(word) == 0);
    }
}

static void comes_back(bool large, size_t vertices, bool closed)
{
    uint64_t bytes[1], words[2];

    MUST((large ? vj_dxf_export_large : vj_dxf_export)(
             FLOATS(path), 4 * vertices, closed, back, sizeof back, bytes,
             1) == 0);
    MUST(import(large, back, bytes[0], again, 4 * 4096, words, 2) == 0);
    MUST(words[0] == vertices && words[1] == closed);
    MUST(memcmp(again, FLOATS(path), 32 * vertices) == 0);
}

void one(const uint8_t *bytes, size_t len)
{
    struct input in = { bytes, len };
    unsigned flags = take_byte(&in);
    size_t room = flags & 16 ? take_room(&in, 4 * 4096) : 4 * 4096;
    size_t told_room = flags & 32 ? take_byte(&in) & 3 : 2, i;
    bool large = flags & 1;
    uint64_t answer;

    if (in.left > MOST_TEXT)
        return;
    lend_filled(&text, in.at, in.left, flags & 2);
    lend(&path, 8 * room, flags & 4);
    lend(&told, 8 * told_room, flags & 8);
    answer = import(large, text.start, in.left, FLOATS(path), room,
                    WORDS(told), told_room);
    MUST(unchanged(&text, in.at));
    if (answer != 0) {
        if (told_room < 2)
            MUST(answer == VJ_NO_ROOM);
        else
            must_be_refusal(answer, in.left);
        MUST(untouched(&path, 0) && untouched(&told, 0));
    } else {
        struct path read = { FLOATS(path), 4 * WORDS(told)[0],
                             WORDS(told)[1] };

        MUST(told_room >= 2 && read.len <= room && WORDS(told)[1] <= 1);
        MUST(untouched(&path, 8 * read.len) && untouched(&told, 16));
        MUST(path_faults(&read, 1, large) == 0);
        for (i = 3; i < read.len; i += 4)
            MUST(read.numbers[i] == 0 && !signbit(read.numbers[i]));
        comes_back(large, read.len / 4, read.closed);
    }
}
