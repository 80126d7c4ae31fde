/* judge TABLE LIST..: judges lists against a table through mirvashol.h, as a program in C would. The tests compile it, and
 * run it on the incident's two lists. */
#include <inttypes.h>
#include <stdio.h>

#include "mirvashol.h"

/* Reads a file, but no more than one byte past the longest valid one. */
static size_t read_file(const char *name, uint8_t *bytes, size_t room)
{
    FILE *file = fopen(name, "rb");
    size_t length = 0;
    if (file != NULL) {
        length = fread(bytes, 1, room, file);
        fclose(file);
    }
    return length;
}

int main(int count, char **words)
{
    static uint8_t table[MIRVASHOL_LONGEST_TABLE + 1];
    static uint8_t list[MIRVASHOL_LONGEST_LIST + 1];
    uint64_t answer[MIRVASHOL_ENTRIES];
    size_t table_length, list_length;
    int i;

    if (count < 3) {
        return 2;
    }
    table_length = read_file(words[1], table, sizeof table);
    for (i = 2; i < count; i++) {
        list_length = read_file(words[i], list, sizeof list);
        if (mirvashol_judge(table, table_length, list, list_length, answer, MIRVASHOL_ENTRIES) == 0) {
            puts("accepted");
        } else {
            printf("refused %" PRIu64 " %" PRIu64 " %" PRIu64 "\n", answer[0], answer[1], answer[2]);
        }
    }
    return 0;
}
