// The peer of the router: the same search as a good engineer would write it
// without proofs (search.h). It is only timed beside the proved program and
// compared with the second router; no expected output is made with it.
//
// Standard input is a question file (bench/README.md says what is in it). All
// questions are answered, `reps` times over and each time from nothing, and the
// checksum over all answers is printed.

#include "search.h"

enum {
    FILE_BYTES = 65536,
    FILE_HEAD = 2, // words before the first question: how many, and reps
};

// ---- The questions and the checksum

static u64 sum;

static void mix(u64 value)
{
    sum = (sum * 31 + value) % 1000003;
}

// Are both pins on the board, at two nodes, and not blocked?
static int can_be_asked(const Question *q)
{
    return q->sx <= q->w && q->tx <= q->w && q->sy <= q->h && q->ty <= q->h
        && (q->sx != q->tx || q->sy != q->ty)
        && !pin_blocked(q, q->sx, q->sy) && !pin_blocked(q, q->tx, q->ty);
}

static void ask(const Question *q)
{
    Answer a;
    if (!can_be_asked(q))
        return;
    answer(q, &a);
    mix(a.code);
    mix(a.length);
    mix(a.detour);
    mix(a.count);
    for (u32 i = 0; i < a.count; i++) {
        mix(a.x[i]);
        mix(a.y[i]);
    }
}

static u16 words[FILE_BYTES / 2]; // little-endian, as the machine is

// Reads the file; 0 if it is not a whole one.
static int read_questions(void)
{
    usize size = 0;
    long got;
    while (size < FILE_BYTES && (got = read(0, (u8 *)words + size, FILE_BYTES - size)) > 0)
        size += (usize)got;
    if (size < 2 * FILE_HEAD || size < 2 * FILE_HEAD + words[0] * sizeof(Question))
        return 0;
    const Question *q = (const Question *)(words + FILE_HEAD);
    for (int i = 0; i < words[0]; i++)
        if (q[i].n > MAX_BLOCKS)
            return 0;
    return 1;
}

static int print_sum(void)
{
    char line[8];
    int from = sizeof line;
    line[--from] = '\n';
    do
        line[--from] = (char)('0' + sum % 10);
    while ((sum /= 10) > 0);
    usize size = sizeof line - (usize)from;
    return write(1, line + from, size) == (long)size;
}

int main(void)
{
    _Static_assert(sizeof(Question) == 2 * 238, "a question is 238 words");
    if (!read_questions()) {
        static const char told[] = "peer: standard input is no question file\n";
        write(2, told, sizeof told - 1);
        return 1;
    }
    const Question *q = (const Question *)(words + FILE_HEAD);
    for (int rep = 0; rep < words[1]; rep++)
        for (int i = 0; i < words[0]; i++)
            ask(&q[i]);
    return print_sum() ? 0 : 1;
}
