/* findings: reads a document from standard input and prints what is found in it, as the program offercheck does, by the three calls of
 * offer.h. It asks for one message at a time. */
#include "offer.h"

#include <stdio.h>

enum { ROOM = 65536, WORDS = 16380, TEXT = 4096 };

static uint8_t doc[ROOM];
static uint32_t words[WORDS];
static uint8_t text[TEXT];

static int refused(uint32_t number, uint64_t place) {
    printf("refused %u at %llu\n", (unsigned)number, (unsigned long long)place);
    return 0;
}

int main(void) {
    /* One byte more than a document may have, so that a longer input is refused as too long. */
    size_t doc_len = fread(doc, 1, ROOM, stdin);

    uint64_t counts[2];
    uint32_t number = offer_findings(doc, doc_len, words, WORDS, counts);
    if (number != OFFER_ACCEPTED)
        return refused(number, counts[0]);

    for (uint64_t k = 0; k < counts[0] + counts[1]; k++) {
        uint64_t length[2];
        number = offer_message(doc, doc_len, k, text, TEXT, length);
        if (number != OFFER_ACCEPTED)
            return refused(number, length[0]);
        printf("%s%.*s\n", k < counts[0] ? "" : "warning: ", (int)length[0], (const char *)text);
    }
    printf("%llu errors, %llu warnings\n", (unsigned long long)counts[0], (unsigned long long)counts[1]);
    return 0;
}
