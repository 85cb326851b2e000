// Accesses that the rule of objects of `verify` does not decide, in mode U. A script sets `task`: a digit for the kind of access, and 10 more if the
// access can leave the enclave.
#include "request.h"
#include "services.h"

enum { FAR = 10, MOST = 16 };

unsigned task = 1;

struct message {
    union {
        unsigned char raw[8];
        unsigned words[4];
    } body;
    unsigned kind;
};
volatile struct message message;

// Three objects, one after the other. `folded` adds an index to an address in the middle of the first one, which may belong to two of them. `hidden` adds words
// from an address on, which it computes in a way that hides the object.
__asm__(".pushsection .data\n"
        ".balign 16\n"
        ".type one, @object\n.size one, 16\none: .space 16\n"
        ".type two, @object\n.size two, 64\ntwo: .space 64\n"
        ".type three, @object\n.size three, 256\nthree: .space 256\n"
        ".popsection\n"
        ".pushsection .text\n"
        ".type folded, @function\n"
        "folded: lla a1, one + 8\n"
        "add a1, a1, a0\n"
        "folded_store: sb zero, 16(a1)\n"
        "ret\n.size folded, . - folded\n"
        ".type hidden, @function\n"
        "hidden: xori a0, a0, 1\n"
        "xori a0, a0, 1\n"
        "li a2, 0\n"
        "1: beqz a1, 2f\n"
        "hidden_load: lw a3, 0(a0)\n"
        "add a2, a2, a3\n"
        "addi a0, a0, 4\n"
        "addi a1, a1, -1\n"
        "j 1b\n"
        "2: mv a0, a2\n"
        "ret\n.size hidden, . - hidden\n"
        ".popsection\n");
void folded(unsigned at);
unsigned hidden(volatile const void *place, unsigned count);

// 1. An index leaves one member of a union.
static unsigned by_union(unsigned at)
{
    if (at < sizeof message.body)
        message.body.raw[at] = 1;
    return message.kind;
}

// 2. Assembly hides where an address comes from. The loop may go on over the end of the region.
extern unsigned char region_base[], region_size[];
static unsigned by_assembly(unsigned count)
{
    return hidden(&message, count);
}

static unsigned by_assembly_at_the_end(unsigned count)
{
    return hidden(region_base + (unsigned)region_size - 8, count);
}

// 3. An address that may belong to one of two objects.
static unsigned by_folding(unsigned at, unsigned most)
{
    if (at < most)
        folded(at << 3);
    return 0;
}

static unsigned by_task(unsigned at)
{
    switch (task) {
    case 1: return by_union(at);
    case 2: return by_assembly(at & 3);
    case 2 + FAR: return by_assembly_at_the_end(at & 3);
    case 3: return by_folding(at, MOST);
    default: return by_folding(at, 1u << 24);
    }
}

unsigned application(window w)
{
    for (;;)
        ask(STOP_FOR_A_WHILE, by_task(w->at));
}
