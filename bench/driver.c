/* Runs one check of a record N times: driver few|all N. Linked with the proved check or with the plain one. */
#include <stdint.h>
#include <stdio.h>
#include <stdlib.h>

uint8_t check_few(uint64_t n, uint8_t icount);
uint8_t check_all(uint64_t n, uint8_t icount);

int main(int argc, char **argv) {
    if (argc != 3) return 2;
    uint64_t n = strtoull(argv[2], NULL, 10);
    printf("%d\n", argv[1][0] == 'f' ? check_few(n, 1) : check_all(n, 1));
    return 0;
}
