// A host that runs its enclave once.
#include "calls.h"
#include "memory.h"

int main(void)
{
    struct monitor_answer created = enclave_create(REGION, REGION_SIZE, WINDOW, WINDOW_SIZE, ENTRY);
    return enclave_run(created.value).status;
}
