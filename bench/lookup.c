/* The lookup program as plain C would have it: a record of four bytes at a time from standard input, a line for each on standard output. */
#include <stdint.h>
#include <stdio.h>

/* In plain.c. */
uint64_t plain_c_place(uint32_t kind, uint32_t role, uint32_t lane, uint32_t element, uint32_t out[4]);

int main(void) {
    unsigned char record[4];
    size_t came;
    while ((came = fread(record, 1, sizeof record, stdin)) == sizeof record) {
        uint32_t place[4];
        uint64_t refused = plain_c_place(record[0], record[1], record[2], record[3], place);
        if (refused)
            printf("refused %u\n", (unsigned)refused);
        else
            printf("%u %u %u %u\n", (unsigned)place[0], (unsigned)place[1], (unsigned)place[2], (unsigned)place[3]);
    }
    if (came > 0)
        printf("short record\n");
    return 0;
}
