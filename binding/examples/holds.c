/* Who holds what in a register, and what each command behind it does.
 *
 *     holds [FILE]
 *
 * FILE is a register text with command texts behind it; without one it is map A of document 01 with a weak global deletion (WGD). */
#include <stdio.h>
#include "rights.h"

static const char MAP_A[] =
    "n=5\nsoa=0\nlayer=7\n"
    "by=0\nto=1\nperm=TT\n"
    "by=0\nto=3\nperm=TF\n"
    "by=1\nto=2\nperm=TT\n"
    "by=2\nto=4\nperm=TT\n"
    "by=3\nto=2\nperm=TF\n"
    "end=register\n"
    "act=wgd\nlayer=7\nby=0\nto=1\nperm=none\n";

static const struct { const char *name; uint8_t code; } PERMS[] = {
    {"TT", RIGHTS_TT}, {"TF", RIGHTS_TF}, {"FT", RIGHTS_FT}, {"FF", RIGHTS_FF}};

static void print_chain(const uint8_t *chain, uint8_t offices) {
    for (uint8_t k = 0; k < offices; k++)
        printf("%s%u", k == 0 ? "" : ",", chain[k]);
    printf("\n");
}

/* Asks for every office and permission; most answers are 0 with a chain, or 12. */
static void print_holdings(const uint8_t *cells, rights_header_t header) {
    uint8_t chain[RIGHTS_OFFICES];
    for (uint16_t j = 0; j < header.n; j++)
        for (size_t p = 0; p < sizeof PERMS / sizeof PERMS[0]; p++) {
            rights_office_t office = {j};
            rights_held_t held = rights_holding(cells, (size_t)header.n * header.n, header, office, PERMS[p].code, chain, sizeof chain);
            if (held.answer == RIGHTS_DONE) {
                printf("%u holds %s by ", j, PERMS[p].name);
                print_chain(chain, held.offices);
            } else if (held.answer != RIGHTS_NOT_HELD)
                printf("refused, %u\n", held.answer);
        }
}

/* Carries out the commands of the text one by one. Returns 0, or 1 where the text is refused. */
static int carry_out(const uint8_t *text, size_t length, uint8_t *cells, rights_header_t header) {
    while (length > 0) {
        rights_command_read_t read = rights_read_command(text, length);
        if (read.answer != RIGHTS_DONE) {
            printf("command refused, %u at %zu\n", read.answer, read.at);
            return 1;
        }
        rights_outcome_t done = rights_command(cells, (size_t)header.n * header.n, header, read.command);
        printf("act %u by %u to %u: answer %u, removed %u, added %u\n", read.command.act, read.command.by.number,
               read.command.to.number, done.answer, done.removed, done.added);
        text += read.next;
        length -= read.next;
    }
    return 0;
}

/* The whole file, or no more than the room; 0 bytes where it cannot be opened, which no register has. */
static size_t take(const char *name, uint8_t *room, size_t length) {
    FILE *file = fopen(name, "rb");
    if (file == NULL)
        return 0;
    length = fread(room, 1, length, file);
    fclose(file);
    return length;
}

int main(int count, char **words) {
    static uint8_t file[65536], cells[RIGHTS_OFFICES * RIGHTS_OFFICES];
    const uint8_t *text = count > 1 ? file : (const uint8_t *)MAP_A;
    size_t length = count > 1 ? take(words[1], file, sizeof file) : sizeof MAP_A - 1;

    rights_register_read_t read = rights_read_register(text, length, cells, sizeof cells);
    if (read.answer != RIGHTS_DONE) {
        printf("register refused, %u at %zu\n", read.answer, read.at);
        return 1;
    }
    print_holdings(cells, read.header);
    if (carry_out(text + read.next, length - read.next, cells, read.header) != 0)
        return 1;
    print_holdings(cells, read.header);
    return 0;
}
