/* hostile CALLS SEED: calls every function of the library so many times, on memory between guards. */
#include <signal.h>

#include "hostile.h"

struct call now;

static uint64_t state, calls, landed, nothing, refused[TUYRASHKA_RULE + 1];

/* splitmix64 */
uint32_t any(void)
{
    uint64_t z = state += 0x9E3779B97F4A7C15u;
    z = (z ^ z >> 30) * 0xBF58476D1CE4E5B9u;
    z = (z ^ z >> 27) * 0x94D049BB133111EBu;
    return (uint32_t)(z >> 32);
}

uint32_t below(uint32_t limit)
{
    return (uint32_t)((uint64_t)any() * limit >> 32);
}

bool one_in(uint32_t times)
{
    return below(times) == 0;
}

/* Up to two beside an edge, of either sign. */
uint32_t extreme(void)
{
    static const uint32_t edges[] = {0, 3, 255, 720, 16383, 32767, 65535, 0x3FFFFFFF, 0x7FFFFFFF};
    uint32_t number = edges[below(sizeof edges / sizeof *edges)];
    number += below(5) - 2;
    return one_in(12) ? any() : one_in(3) ? 0 - number : number;
}

static void show(const char *said)
{
    printf("%s, call %llu: %s\n", now.name, (unsigned long long)calls, said);
    if (now.show != NULL)
        now.show();
    fflush(stdout);
}

void expect(bool holds, const char *said)
{
    if (holds)
        return;
    show(said);
    exit(1);
}

static void on_fault(int signal)
{
    (void)signal;
    show("touched what it was not lent");
    _exit(1);
}

void count(uint32_t status, bool something)
{
    calls++;
    if (status != TUYRASHKA_OK)
        refused[status]++;
    else if (something)
        landed++;
    else
        nothing++;
}

void lend_output(struct arena *a, size_t length)
{
    lend(a, length, one_in(2));
    memset(to_write(a), 0xA5, length);
    keep(a);
}

static void report(void)
{
    printf("%llu calls on memory between guards: %llu landed or found something, %llu nothing; refused",
           (unsigned long long)calls, (unsigned long long)landed, (unsigned long long)nothing);
    for (uint32_t number = 1; number <= TUYRASHKA_RULE; number++)
        if (refused[number] != 0)
            printf(" %u: %llu", number, (unsigned long long)refused[number]);
    printf("\n");
}

int main(int argc, char **argv)
{
    uint32_t times = argc > 1 ? (uint32_t)strtoul(argv[1], NULL, 10) : 250000;
    state = argc > 2 ? strtoull(argv[2], NULL, 10) : 1;
    signal(SIGSEGV, on_fault);
    signal(SIGBUS, on_fault);
    make_drawing_arenas();
    make_file_arenas();
    for (uint32_t i = 0; i < times; i++) {
        for (int function = 0; function < DRAWING; function++)
            draw_once(function);
        read_once();
        intersect_once();
        decode_lbmp_once();
        decode_res_once();
    }
    draw_on_largest();
    report();
    return 0;
}
