// A host that prints more than the ring of its console holds, a control character and a line without an end, and ends with status 7.
#include "console.h"

int main(void)
{
    for (int i = 0; i < 300; i++)
        print_character('a' + i % 26);
    print("\nred: \033[31m\tnumbers: ");
    print_number(0);
    print(" ");
    print_number(4294967295u);
    print(" ");
    print_hex(0x0a454e43);
    print("\nno end");
    finish(256 + 7);
}
