/*
 * A reader on a stack of 128 KB, as a small rig has it: start, steps and result, with the copies of the state that go into a call
 * and come back. Below the stack nothing can be touched, so that a call which needs more ends in a fault and counts as failed. Every
 * answer comes up, and a card on which a pull comes through all there is.
 */
#include <setjmp.h>
#include <signal.h>
#include <sys/mman.h>
#include <ucontext.h>

#include "deep_card.h"
#include "reading.h"

/* Frames may be larger than a page, so that one page below wouldn't be met. */
enum { STACK = 128 * 1024, GUARD = 1024 * 1024 };

static uint8_t *stack;
static ucontext_t back, there;
static sigjmp_buf escape;

/* On a stack of its own: of the small one nothing is left. */
static void on_fault(int number)
{
    (void)number;
    siglongjmp(escape, 1);
}

static int prepare(void)
{
    static uint8_t handlers[64 * 1024];
    stack_t other = {.ss_sp = handlers, .ss_size = sizeof handlers};
    struct sigaction action = {.sa_handler = on_fault, .sa_flags = SA_ONSTACK | SA_NODEFER};
    uint8_t *guard = mmap(NULL, GUARD + STACK, PROT_NONE, MAP_PRIVATE | MAP_ANONYMOUS, -1, 0);
    stack = guard + GUARD;
    return guard != MAP_FAILED && mprotect(stack, STACK, PROT_READ | PROT_WRITE) == 0 && sigaltstack(&other, NULL) == 0 &&
           sigaction(SIGSEGV, &action, NULL) == 0;
}

/* Makes a call on the small stack. Returns whether that is enough for it. */
static int fits(void (*call)(void))
{
    if (sigsetjmp(escape, 1) != 0 || getcontext(&there) != 0)
        return 0;
    there.uc_stack.ss_sp = stack;
    there.uc_stack.ss_size = STACK;
    there.uc_link = &back;
    makecontext(&there, call, 0);
    return swapcontext(&back, &there) == 0;
}

/* So many bytes of it are used, from their top on. */
static void use(size_t len)
{
    static uint8_t used;
    volatile uint8_t bytes[len];
    for (size_t i = len; i > 0; i--)
        bytes[i - 1] = 1;
    used = (uint8_t)(used + bytes[0]);
}

static void use_most(void)
{
    use(STACK - 4096);
}

static void use_more(void)
{
    use(STACK);
}

/* What is pulled, and by which reader, which isn't on the stack. */
static struct path path;
static uint32_t index_wanted;
static struct harptimber_reader reader;

static void read_small(void)
{
    start(&reader, path.text, path.len, index_wanted);
    feed_all(&reader);
    take_result(&reader, BLOCK, sizeof nodes, sizeof blocks);
}

static void expect_read(const char *what, uint32_t index, uint32_t answer)
{
    index_wanted = index;
    pull_with(path.text, path.len, index, sizeof nodes, sizeof blocks);
    memset(&read_gave, 0xFF, sizeof read_gave);
    int fitted = fits(read_small);
    if (fails(fitted && got.answer == answer && is_over(&reader) && is_as_pulled()))
        printf("FAILED %s, block %" PRIu32 ", on a small stack: %s after %" PRIu32 " blocks, answer %" PRIu32
               ", expected %" PRIu32 "\n",
               what, index, fitted ? "over" : "too small", asked_count, read_gave.answer, answer);
}

static void take_path(const char *text)
{
    path.len = strlen(text);
    memcpy(path.text, text, path.len);
}

int main(void)
{
    if (fails(prepare() && fits(use_most) && !fits(use_more))) { /* it would pass on anything otherwise */
        printf("FAILED to make a stack of which the end is noticed\n");
        return finish();
    }
    for (size_t i = 0; i < COUNT_OF(pulls); i++) {
        put_pull(&pulls[i]);
        take_path(pulls[i].path);
        expect_read(pulls[i].what, pulls[i].index, pulls[i].answer);
    }
    take_path(road);
    for (size_t i = 0; i < COUNT_OF(unopened); i++) {
        put_sound();
        unopened[i].damage(card);
        expect_read("a card that doesn't open", 0, unopened[i].answer);
    }
    path = put_deep_card();
    for (size_t i = 0; i < WAYS; i++)
        expect_read("the deep card", way_indexes[i], HARPTIMBER_DATA);
    return finish();
}
