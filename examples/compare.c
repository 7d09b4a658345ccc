/* The quartet distance of two trees, (0,1,(2,(3,4))) and (0,1,(2,3,4)). */
#include <leskwyn.h>
#include <stdio.h>

int main(void) {
    const uint16_t x = LESKWYN_INNER, p[] = {5, 8, 0, 0, 1, 1, 3, 3, 5, 5, 0, x, 1, x, 2, x, 3, 4};
    const uint16_t q[] = {5, 7, 0, 0, 1, 1, 3, 3, 3, 0, x, 1, x, 2, 3, 4};
    const uint8_t marks[] = {1, 1, 1, 1, 1};
    uint8_t work[7 * 6];
    leskwyn_quartet_table_answer table = leskwyn_quartet_table(p, 18, q, 16, marks, 5, work, 7 * 6);
    printf("distance %llu\n", (unsigned long long)table.distance);
    return table.refusal;
}
