/* The canonical copy of (0,1,(2,(3,4))) with the labels 1, 3 and 4 alone. */
#include <leskwyn.h>
#include <stdio.h>

int main(void) {
    const uint16_t x = LESKWYN_INNER, p[] = {5, 8, 0, 0, 1, 1, 3, 3, 5, 5, 0, x, 1, x, 2, x, 3, 4};
    const uint8_t marks[] = {0, 1, 0, 1, 1};
    uint16_t copy[18];
    leskwyn_copy_answer answer = leskwyn_canonical_copy(p, 18, marks, 5, copy, 18);
    for (int i = 0; i < answer.words; i++) printf("%u%c", copy[i], i + 1 < answer.words ? ' ' : '\n');
    return answer.refusal;
}
