// A parser of a message: TLV, CBOR or DER of up to 64 bytes, or boxes of up to 16, as a macro says. Further macros select a bug.
#include "request.h"
#include "services.h"

enum { BAD_LENGTH = 0x80000001u, BAD_FIELD, BAD_DEPTH };

unsigned char message[MESSAGE];

#if defined TLV
#include "tlv.h"
#elif defined CBOR
#include "cbor.h"
#elif defined BOXES
#include "boxes.h"
#else
#include "der.h"
#endif

static unsigned answer(window w)
{
    unsigned length = w->length;
    if (length > MESSAGE)
        return BAD_LENGTH;
    for (unsigned i = 0; i < length; i++)
        message[i] = w->data[i];
    return parse(length);
}

unsigned application(window w)
{
    for (;;)
        ask(STOP_FOR_A_WHILE, answer(w));
}
