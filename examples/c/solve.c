/* Reads a game file and prints what the solver says of it, as the program hvoyanur does.
 *
 *     cc -Iinclude -o solve examples/c/solve.c target/staticlib/libhvoyanur_c.a
 *     ./solve examples/m.game
 */
#include <stdio.h>

#include "hvoyanur.h"

/* One byte more than any accepted file has, so that a longer file is still refused. */
static uint8_t file[HVOYANUR_MAX_FILE + 1];
static uint16_t marks[HVOYANUR_MAX_STATES], blocks[HVOYANUR_MAX_STATES], moves[HVOYANUR_MAX_STATES];

static void print_number(unsigned number, char after)
{
    if (number == HVOYANUR_NONE)
        printf("-%c", after);
    else
        printf("%u%c", number, after);
}

static void print_states(unsigned states)
{
    static const char *const mark_words[] = { "never", "open", "sure" };

    printf("state mark block move\n");
    for (unsigned s = 0; s < states; s++) {
        printf("%u %s %u ", s, mark_words[marks[s]], (unsigned)blocks[s]);
        print_number(moves[s], '\n');
    }
}

int main(int argc, char **argv)
{
    static const char *const words[] = { "REFUSED", "YES", "NO", "OPEN" };
    FILE *in = argc == 2 ? fopen(argv[1], "rb") : NULL;

    if (in == NULL) {
        fprintf(stderr, "usage: solve FILE\n");
        return 2;
    }
    size_t length = fread(file, 1, sizeof file, in);
    fclose(in);

    uint64_t answer = hvoyanur_solve(file, length, marks, HVOYANUR_MAX_STATES, blocks, HVOYANUR_MAX_STATES,
                                     moves, HVOYANUR_MAX_STATES, 511);
    unsigned word = hvoyanur_word(answer);

    printf("%s ", words[word]);
    if (word == HVOYANUR_REFUSED) {
        printf("%u\n", hvoyanur_named(answer));
        return 1;
    }
    print_number(hvoyanur_named(answer), ' ');
    printf("%u\n", hvoyanur_splits(answer));
    print_states(file[4] + 256u * file[5]);
    return 0;
}
