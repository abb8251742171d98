/* Measures the proved machine against a plain interpreter of the same code: same script, same fuel, side by side. */
#include <stdint.h>
#include <stdio.h>
#include <time.h>

uint32_t tuzsompa_counting_steps(uint32_t fuel, uint32_t steps);

enum { LIT, GETL, SETL, GETG, SETG, ADD, SUB, GT, POP, JZ, JMP, TICK, CALL, RET, BAYR, BAYW, HALT };

struct instruction { int operation; int64_t argument; int place; };

static const struct instruction counting[19] = {
    {TICK, 0, 1}, {LIT, 1, 3}, {LIT, 0, 4}, {GT, 0, 2}, {JZ, 17, 1},
    {GETG, 0, 9}, {LIT, 1, 10}, {ADD, 0, 8}, {SETG, 0, 7}, {POP, 0, 5},
    {LIT, 0, 13}, {GETG, 0, 14}, {BAYW, 0, 12}, {POP, 0, 5}, {LIT, 0, 5},
    {POP, 0, 1}, {JMP, 0, 1}, {LIT, 0, 1}, {HALT, 0, 0},
};

static int32_t words[16];
static int32_t bays[1];

/* Not inlined, so that the compiler does not see the one script it runs. */
__attribute__((noinline)) static uint32_t plain(const struct instruction *code, uint32_t fuel, uint32_t steps) {
    uint32_t made = 0;
    int64_t pc = 0, top = 1, base = 1;
    while (made < steps) {
        const struct instruction *i = &code[pc++];
        made++;
        switch (i->operation) {
        case LIT: words[top++] = (int32_t)i->argument; break;
        case GETL: words[top] = words[base + i->argument]; top++; break;
        case SETL: words[base + i->argument] = words[top - 1]; break;
        case GETG: words[top] = words[i->argument]; top++; break;
        case SETG: words[i->argument] = words[top - 1]; break;
        case ADD: top--; words[top - 1] = (int32_t)((uint32_t)words[top - 1] + (uint32_t)words[top]); break;
        case SUB: top--; words[top - 1] = (int32_t)((uint32_t)words[top - 1] - (uint32_t)words[top]); break;
        case GT: top--; words[top - 1] = words[top - 1] > words[top]; break;
        case POP: top--; break;
        case JZ: if (words[--top] == 0) pc = i->argument; break;
        case JMP: pc = i->argument; break;
        case TICK: if (fuel == 0) return made; fuel--; break;
        case BAYR: { int32_t s = words[top - 1]; if (s < 0 || s >= 1) return made; words[top - 1] = bays[s]; break; }
        case BAYW: { int32_t s = words[top - 2]; if (s < 0 || s >= 1) return made; bays[s] = words[top - 1]; words[top - 2] = words[top - 1]; top--; break; }
        default: return made;
        }
    }
    return made;
}

static double now(void) {
    struct timespec t;
    clock_gettime(CLOCK_MONOTONIC, &t);
    return (double)t.tv_sec + 1e-9 * (double)t.tv_nsec;
}

int main(void) {
    const uint32_t fuel = 5000000, steps = 4000000000u;
    double best_proved = 1e9, best_plain = 1e9;
    uint32_t a = 0, b = 0;
    for (int turn = 0; turn < 5; turn++) {
        double t = now();
        a = tuzsompa_counting_steps(fuel, steps);
        double u = now();
        b = plain(counting, fuel, steps);
        double v = now();
        if (u - t < best_proved) best_proved = u - t;
        if (v - u < best_plain) best_plain = v - u;
    }
    printf("steps made: proved machine %u, plain interpreter %u\n", a, b);
    if (a != b) { printf("the two disagree\n"); return 1; }
    printf("proved machine: %.0f steps a second\n", a / best_proved);
    printf("plain interpreter: %.0f steps a second\n", b / best_plain);
    printf("ratio: the plain interpreter is %.1f times as fast\n", best_proved / best_plain);
    return 0;
}
