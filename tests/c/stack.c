#include "stack.h"
#include "simaurkoi.h"
#include "text.h"

enum { STACK = 65536, PAINT = 0xA5 };

/* A call runs on a stack of its own. What it left of the paint was not used. */
static uint8_t stack[STACK] __attribute__((aligned(16)));

static const struct interface *asked;
static const struct input *given;
static uint64_t answer[SIMAURKOI_PLACES];
static uint8_t out[SIMAURKOI_SET_BYTES];

static void ask_exact(void)
{
    asked->exact(given->bytes, given->size, answer, SIMAURKOI_PLACES);
}

static void ask_superposition(void)
{
    asked->superposition(given->bytes, given->size, 255, answer, SIMAURKOI_PLACES);
}

static void ask_rewrite(void)
{
    asked->rewrite(given->bytes, given->size, out, sizeof out, answer, SIMAURKOI_PLACES);
}

/* A wrong version, which the measure has to see. */
static void ask_greedily(void)
{
    volatile uint8_t more[SIMAURKOI_REWRITE_STACK];
    for (size_t i = 0; i < sizeof more; i++)
        more[i] = 0;
    ask_rewrite();
}

static void run_on_stack(void (*call)(void))
{
    __asm__ volatile("movq %%rsp, %%rbx\n\t"
                     "movq %0, %%rsp\n\t"
                     "callq *%1\n\t"
                     "movq %%rbx, %%rsp"
                     :
                     : "r"(stack + STACK), "r"(call)
                     : "rax", "rbx", "rcx", "rdx", "rsi", "rdi", "r8", "r9", "r10", "r11", "xmm0", "xmm1", "xmm2",
                       "xmm3", "xmm4", "xmm5", "xmm6", "xmm7", "xmm8", "xmm9", "xmm10", "xmm11", "xmm12", "xmm13",
                       "xmm14", "xmm15", "cc", "memory");
}

static size_t stack_of(void (*call)(void))
{
    size_t left = 0;
    for (size_t i = 0; i < STACK; i++)
        stack[i] = PAINT;
    run_on_stack(call);
    while (left < STACK && stack[left] == PAINT)
        left++;
    return STACK - left;
}

static size_t most_stack_of(void (*call)(void))
{
    size_t most = 0;
    for (size_t i = 0; i < inputs_made(); i++) {
        size_t taken;
        given = input_at(i);
        if (given->group != SUMS && given->group != LIMITS)
            continue;
        taken = stack_of(call);
        if (taken > most)
            most = taken;
    }
    return most;
}

static int suffices(const char *name, void (*call)(void), size_t allowed)
{
    size_t most = most_stack_of(call);
    put_text(name);
    put_number(most);
    put_text(" bytes of ");
    put_number(allowed);
    return most <= allowed;
}

int stack_suffices(const struct interface *called)
{
    int enough;
    asked = called;
    enough = suffices("stack: exact ", ask_exact, SIMAURKOI_EXACT_STACK);
    enough &= suffices(", superposition ", ask_superposition, SIMAURKOI_SUPERPOSITION_STACK);
    enough &= suffices(", rewrite ", ask_rewrite, SIMAURKOI_REWRITE_STACK);
    put_text(enough ? "\n" : ": TOO MUCH\n");
    if (most_stack_of(ask_greedily) > SIMAURKOI_REWRITE_STACK)
        return enough;
    put_text("NOT SEEN: more stack than is allowed\n");
    return 0;
}
