/* How far each exchange of two labels moves (0,1,(2,(3,4))), in tallies. */
#include <leskwyn.h>
#include <stdio.h>

int main(void) {
    const uint16_t x = LESKWYN_INNER, p[] = {5, 8, 0, 0, 1, 1, 3, 3, 5, 5, 0, x, 1, x, 2, x, 3, 4};
    uint8_t work[7 * 7];
    leskwyn_exchange_answer answer = leskwyn_exchange_tallies(p, 18, work, 7 * 7);
    for (int i = 0; i < 11; i++) printf("%llu%c", (unsigned long long)answer.tallies[i], i < 10 ? ' ' : '\n');
    return answer.refusal;
}
