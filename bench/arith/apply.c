/* The calls of crates/bench_arith in C: the value of an operation on 64-bit numbers, or none where it overflows or divides by zero. */
#include <inttypes.h>
#include <stdbool.h>
#include <stdio.h>
#include <string.h>

enum op { ADD, SUB, MUL, DIV };

static bool apply(enum op op, int64_t a, int64_t b, int64_t *value)
{
    switch (op) {
    case ADD: return !__builtin_add_overflow(a, b, value);
    case SUB: return !__builtin_sub_overflow(a, b, value);
    case MUL: return !__builtin_mul_overflow(a, b, value);
    default:
        if (b == 0 || (a == INT64_MIN && b == -1))
            return false;
        *value = a / b;
        return true;
    }
}

int main(void)
{
    char name[8];
    uint64_t millions;
    while (scanf("%7s %" SCNu64, name, &millions) == 2) {
        enum op op = !strcmp(name, "add") ? ADD : !strcmp(name, "sub") ? SUB : !strcmp(name, "mul") ? MUL : DIV;
        uint64_t sum = 0, traps = 0;
        for (uint64_t seed = 0; seed < millions; seed++) {
            uint64_t state = seed;
            for (int i = 0; i < 1000000; i++) {
                int64_t value;
                state = state * UINT64_C(6364136223846793005) + UINT64_C(1442695040888963407);
                if (apply(op, (int64_t)state >> 12, (int64_t)(state % 65536), &value))
                    sum += (uint64_t)value;
                else
                    traps++;
            }
        }
        printf("%s %" PRId64 " %" PRIu64 "\n", name, (int64_t)sum, traps);
    }
}
