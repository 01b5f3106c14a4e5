// The peer of trackprint: records on standard input, document 01's sheet (with
// document 02's orders 2, 3 and 6) on standard output, as a good engineer would write it
// without proofs. It is only timed beside the proved program and compared with
// the second router; no expected output is made with it.

#include "search.h"

enum {
    MAX_RECORDS = 65535,
    RECORD_BYTES = 12,
    MAX_SIDE = 30000,
    MAX_CLEARANCE = 200,
    MAX_RUNS = MAX_CORNERS - 1,
    MAX_KEPT = 32,
};

// The codes that the search does not give.
enum {
    ACCEPTED,
    BAD_RECORD,
    NO_BOUNDS,
    OUT_OF_RANGE,
    ID_IN_USE,
    ID_NOT_IN_USE,
    BAD_RECTANGLE,
    MEETS_KEEPOUT,
    MEETS_WIRE,
    PIN_OFF_BOARD,
    PINS_EQUAL,
    PIN_IN_KEEPOUT,
    TOO_MANY_BLOCKS = 14,
    NOTHING_KEPT = 15,
    PIN_NEAR_WIRE = 18,
};

enum { BOUNDS = 1, KEEPOUT, LAY, ASK, TAKE_OUT, UNDO, ASK_STRAIGHT = 8, LAY_STRAIGHT };

// A record as it stands in the file, little-endian as the machine is.
typedef struct {
    u8 kind, zero;
    u16 id, a, b, c, d;
} Record;

// An item without its blocks.
typedef struct {
    u16 id;
    u8 is_wire, count;
} Item;

// A change that can be undone. An item that was taken out comes with its blocks.
typedef struct {
    int taken_out;
    Item item;
    Row rows[MAX_RUNS];
} Change;

// The board: its size and all blocks, those of one item in a row and in the
// order of `items`. Its pins are those of the latest question.
static Question board;
static int has_bounds;
static u16 clearance;
static Item items[MAX_BLOCKS];
static int item_count;

// The pin and the item that the latest refusal with 11 or 18 tells.
static struct {
    u32 pin, id;
} blocked;

// A ring of kept changes; the latest is `kept_count` - 1 after the first.
static Change kept[MAX_KEPT];
static u32 kept_first, kept_count;

// ---- Items and changes

static int find_item(u16 id)
{
    for (int i = 0; i < item_count; i++)
        if (items[i].id == id)
            return i;
    return -1;
}

static void add_item(Item item, const Row *its_rows)
{
    items[item_count++] = item;
    __builtin_memcpy(&board.rows[board.n], its_rows, item.count * sizeof(Row));
    board.n += item.count;
}

// Removes an item and gives its blocks.
static Item remove_item(int index, Row *its_rows)
{
    Item item = items[index];
    int first = 0;
    for (int i = 0; i < index; i++)
        first += items[i].count;
    int after = first + item.count;
    __builtin_memcpy(its_rows, &board.rows[first], item.count * sizeof(Row));
    __builtin_memmove(&board.rows[first], &board.rows[after], (usize)(board.n - after) * sizeof(Row));
    __builtin_memmove(&items[index], &items[index + 1], (usize)(item_count - index - 1) * sizeof(Item));
    board.n -= item.count;
    item_count--;
    return item;
}

// The place for one change more; the oldest goes if there is none left.
static Change *keep(void)
{
    if (kept_count == MAX_KEPT)
        kept_first = (kept_first + 1) % MAX_KEPT;
    else
        kept_count++;
    return &kept[(kept_first + kept_count - 1) % MAX_KEPT];
}

static u32 change_by_adding(Item item, const Row *its_rows)
{
    if (board.n + item.count > MAX_BLOCKS)
        return TOO_MANY_BLOCKS;
    add_item(item, its_rows);
    Change *change = keep();
    change->taken_out = 0;
    change->item = item;
    return ACCEPTED;
}

// ---- The kinds of records

static u32 bounds(const Record *r)
{
    if (r->a < 1 || r->a > MAX_SIDE || r->b < 1 || r->b > MAX_SIDE || r->c < 1 || r->c > MAX_CLEARANCE)
        return OUT_OF_RANGE;
    has_bounds = 1;
    board.w = r->a;
    board.h = r->b;
    clearance = r->c;
    board.n = 0;
    item_count = 0;
    kept_first = kept_count = 0;
    return ACCEPTED;
}

// Does the open area meet a keep-out's, or a run?
static int meets(const Row *area, int wires)
{
    const Row *b = board.rows;
    for (int i = 0; i < item_count; b += items[i++].count) {
        if (items[i].is_wire != wires)
            continue;
        for (int j = 0; j < items[i].count; j++)
            if (area->x0 < b[j].x1 && b[j].x0 < area->x1 && area->y0 < b[j].y1 && b[j].y0 < area->y1)
                return 1;
    }
    return 0;
}

// Does a wire run along a seam, for a unit or more? One that crosses it would be in
// a keep-out.
static int runs_along(const Row *shared)
{
    const Row *b = board.rows;
    for (int i = 0; i < board.n; i++, b++) {
        int x0 = most(shared->x0, b->x0), x1 = least(shared->x1, b->x1);
        int y0 = most(shared->y0, b->y0), y1 = least(shared->y1, b->y1);
        if (b->c > 0 && x0 <= x1 && y0 <= y1 && (x0 < x1 || y0 < y1))
            return 1;
    }
    return 0;
}

// Would a keep-out close a seam over a wire?
static int closes_over_wire(const Row *area)
{
    Row shared;
    for (int i = 0; i < board.n; i++)
        if (board.rows[i].c == 0 && seam(area, &board.rows[i], &shared) && runs_along(&shared))
            return 1;
    return 0;
}

static u32 keep_out(const Record *r)
{
    Row area = {r->a, r->b, r->c, r->d, 0};
    if (find_item(r->id) >= 0)
        return ID_IN_USE;
    if (!(area.x0 < area.x1 && area.x1 <= board.w && area.y0 < area.y1 && area.y1 <= board.h))
        return BAD_RECTANGLE;
    if (meets(&area, 0))
        return MEETS_KEEPOUT;
    if (meets(&area, 1) || closes_over_wire(&area))
        return MEETS_WIRE;
    return change_by_adding((Item){r->id, 0, 1}, &area);
}

// What is said of a pin: whether keep-outs block it, of which each holds a cell
// next to it, and if none does, whether a wire does, each time with the smallest
// id. Most pins are free, which is seen first.
static u32 check_pin(u32 pin, int x, int y)
{
    if (!pin_blocked(&board, x, y))
        return ACCEPTED;
    u32 ids[2] = {0, 0}; // of a keep-out and of a wire, 0 if there is none
    int held = 0;
    const Row *b = board.rows;
    for (int i = 0; i < item_count; b += items[i++].count) {
        u32 *id = &ids[items[i].is_wire];
        if (!items[i].is_wire)
            held |= cells_held(b, x, y);
        if (*id != 0 && *id < items[i].id)
            continue;
        for (int j = 0; j < items[i].count; j++)
            if (items[i].is_wire ? in_box(&b[j], x, y) : cells_held(&b[j], x, y) != 0)
                *id = items[i].id;
    }
    int in_keepout = held == 15;
    blocked.pin = pin;
    blocked.id = ids[in_keepout ? 0 : 1];
    return in_keepout ? PIN_IN_KEEPOUT : PIN_NEAR_WIRE;
}

static u32 ask(const Record *r, Answer *a)
{
    if (r->a > board.w || r->b > board.h || r->c > board.w || r->d > board.h)
        return PIN_OFF_BOARD;
    if (r->a == r->c && r->b == r->d)
        return PINS_EQUAL;
    u32 code = check_pin(1, r->a, r->b);
    if (code == ACCEPTED)
        code = check_pin(2, r->c, r->d);
    if (code != ACCEPTED)
        return code;
    board.sx = r->a;
    board.sy = r->b;
    board.tx = r->c;
    board.ty = r->d;
    board.straight = r->kind >= ASK_STRAIGHT;
    answer(&board, a);
    return a->code;
}

static u32 lay(const Record *r, Answer *a)
{
    if (find_item(r->id) >= 0)
        return ID_IN_USE;
    u32 code = ask(r, a);
    if (code != ACCEPTED)
        return code;
    Row runs[MAX_RUNS];
    u32 count = a->count - 1;
    for (u32 i = 0; i < count; i++) {
        u16 x = a->x[i], next_x = a->x[i + 1], y = a->y[i], next_y = a->y[i + 1];
        runs[i] = (Row){
            (u16)least(x, next_x), (u16)least(y, next_y),
            (u16)most(x, next_x), (u16)most(y, next_y), clearance,
        };
    }
    return change_by_adding((Item){r->id, 1, (u8)count}, runs);
}

static u32 take_out(const Record *r)
{
    int index = find_item(r->id);
    if (index < 0)
        return ID_NOT_IN_USE;
    Change *change = keep();
    change->taken_out = 1;
    change->item = remove_item(index, change->rows);
    return ACCEPTED;
}

static u32 undo(void)
{
    if (kept_count == 0)
        return NOTHING_KEPT;
    Change *change = &kept[(kept_first + --kept_count) % MAX_KEPT];
    if (change->taken_out)
        add_item(change->item, change->rows);
    else
        remove_item(find_item(change->item.id), change->rows);
    return ACCEPTED;
}

static int is_plain(const Record *r)
{
    int empty = r->a == 0 && r->b == 0 && r->c == 0 && r->d == 0;
    if (r->zero != 0)
        return 0;
    switch (r->kind) {
    case BOUNDS: return r->id == 0 && r->d == 0;
    case KEEPOUT:
    case LAY:
    case LAY_STRAIGHT: return r->id != 0;
    case ASK:
    case ASK_STRAIGHT: return r->id == 0;
    case TAKE_OUT: return r->id != 0 && empty;
    case UNDO: return r->id == 0 && empty;
    default: return 0;
    }
}

// Takes a record; an accepted lay or ask has its wire in `a`, with all others
// its count is 0.
static u32 take(const Record *r, Answer *a)
{
    if (!is_plain(r))
        return BAD_RECORD;
    if (r->kind == BOUNDS)
        return bounds(r);
    if (!has_bounds)
        return NO_BOUNDS;
    switch (r->kind) {
    case KEEPOUT: return keep_out(r);
    case LAY:
    case LAY_STRAIGHT: return lay(r, a);
    case ASK:
    case ASK_STRAIGHT: return ask(r, a);
    case TAKE_OUT: return take_out(r);
    default: return undo();
    }
}

// ---- The sheet

// Numbers have at most ten digits: a line has under 50 of them.
enum { OUTPUT_BYTES = 65536, LONGEST_LINE = 600 };

static u8 input[MAX_RECORDS * RECORD_BYTES + 1];
static char output[OUTPUT_BYTES];
static usize output_size;

// Reads up to one byte more than is printed; -1 if reading fails.
static long read_input(void)
{
    usize size = 0;
    while (size < sizeof input) {
        long got = read(0, input + size, sizeof input - size);
        if (got < 0)
            return -1;
        if (got == 0)
            break;
        size += (usize)got;
    }
    return (long)size;
}

static int flush(void)
{
    for (usize done = 0; done < output_size;) {
        long put = write(1, output + done, output_size - done);
        if (put <= 0)
            return 0;
        done += (usize)put;
    }
    output_size = 0;
    return 1;
}

static void put(char c)
{
    output[output_size++] = c;
}

static void put_number(u32 number)
{
    char digits[10];
    int count = 0;
    do
        digits[count++] = (char)('0' + number % 10);
    while ((number /= 10) > 0);
    while (count > 0)
        put(digits[--count]);
}

static void put_next(u32 number)
{
    put(' ');
    put_number(number);
}

static void put_line(u32 number, u32 code, const Answer *a)
{
    put_number(number);
    put_next(code);
    if (code == PIN_IN_KEEPOUT || code == PIN_NEAR_WIRE) {
        put_next(blocked.pin);
        put_next(blocked.id);
    }
    if (code == ACCEPTED && a->count > 0) {
        put_next(a->length);
        put_next(a->detour);
        for (u32 i = 0; i < a->count; i++) {
            put_next(a->x[i]);
            put(':');
            put_number(a->y[i]);
        }
    }
    put('\n');
}

static void put_word(const char *word)
{
    while (*word)
        put(*word++);
}

static int print_sheet(usize size)
{
    int cut = size > MAX_RECORDS * RECORD_BYTES;
    u32 number = 0;
    for (usize at = 0; at < size && number < MAX_RECORDS; at += RECORD_BYTES) {
        Record record = {0};
        Answer a;
        a.count = 0;
        // A last piece stays kind 0, which is bad.
        if (size - at >= RECORD_BYTES)
            __builtin_memcpy(&record, input + at, RECORD_BYTES);
        u32 code = take(&record, &a);
        if (output_size + LONGEST_LINE > OUTPUT_BYTES && !flush())
            return 0;
        put_line(++number, code, &a);
    }
    put_word(cut ? "cut\n" : "end\n");
    return flush();
}

int main(void)
{
    _Static_assert(sizeof(Record) == RECORD_BYTES, "a record has no holes");
    long size = read_input();
    if (size >= 0 && print_sheet((usize)size))
        return 0;
    static const char told[] = "sheet: cannot read or write\n";
    write(2, told, sizeof told - 1);
    return 1;
}
