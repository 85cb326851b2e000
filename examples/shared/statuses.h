/* Names of the statuses of monitor calls, for messages. docs/MONITOR.md has their meaning. */
#ifndef MONITOR_STATUSES_H
#define MONITOR_STATUSES_H

#include "calls.h"

/* Returns the name of a status. */
static inline const char *status_name(int status)
{
    switch (status) {
    case DONE: return "Done";
    case NOT_SUPPORTED: return "NotSupported";
    case BAD_REGION: return "BadRegion";
    case BAD_WINDOW: return "BadWindow";
    case OVERLAP: return "Overlap";
    case BAD_ENTRY: return "BadEntry";
    case NO_SLOT: return "NoSlot";
    case NO_ENCLAVE: return "NoEnclave";
    case BAD_STATE: return "BadState";
    case BAD_ADDRESS: return "BadAddress";
    default: return "an unknown status";
    }
}

#endif
