// A host that prints to its console, and runs an enclave that prints to the console in its window. It resumes the enclave after each timer
// interrupt. It ends with status 0 if the enclave answered 42. Otherwise it says what went wrong, and ends with another status.
#include "calls.h"
#include "console.h"
#include "memory.h"
#include "statuses.h"

enum { WRONG_ANSWER = 10, REFUSED_CALL = 11, FAILED_APPLICATION = 12 }; // statuses of the program

/* Ends the program if the monitor refused a call. */
static void require(const char *call, int status)
{
    if (status >= 0)
        return;
    print("host: ");
    print(call);
    print(" was refused: ");
    print(status_name(status));
    print("\n");
    finish(REFUSED_CALL);
}

int main(void)
{
    struct monitor_answer created, left;

    print("host: creating an enclave\n");
    created = enclave_create(REGION, REGION_SIZE, WINDOW, WINDOW_SIZE, ENTRY);
    require("create", created.status);
    left = enclave_run(created.value);
    require("run", left.status);
    while (left.status == INTERRUPTED) {
        left = enclave_resume(created.value);
        require("resume", left.status);
    }
    if (left.status == STOPPED) { // the runtime stops only if the application failed
        print("host: the application failed with trap cause ");
        print_number(left.value);
        print("\n");
        finish(FAILED_APPLICATION);
    }
    print("host: the enclave answered ");
    print_number(left.value);
    print("\n");
    require("destroy", enclave_destroy(created.value).status);
    finish(left.value == 42 ? DONE : WRONG_ANSWER);
}
