/* stack FILE...: the bytes of stack that each call uses on each document, beyond what a thread that does nothing uses. A call runs on a
 * thread whose stack was filled with a pattern; what it has overwritten is counted from the far end. */
#include "offer.h"

#include <pthread.h>
#include <stdio.h>
#include <stdlib.h>
#include <string.h>

enum { SPACE = 1 << 20, PATTERN = 0xA5, WORDS = 16380, TEXT = 4096 };

static unsigned char space[SPACE] __attribute__((aligned(4096)));
static uint8_t doc[65536];
static size_t doc_len;
static uint32_t words[WORDS];
static uint8_t text[TEXT];
static uint64_t answer[2];

static void *nothing(void *arg) {
    return arg;
}

static void *reading(void *arg) {
    offer_read(doc, doc_len, &answer[0]);
    return arg;
}

static void *findings(void *arg) {
    offer_findings(doc, doc_len, words, WORDS, answer);
    return arg;
}

static void *message(void *arg) {
    offer_message(doc, doc_len, 0, text, TEXT, answer);
    return arg;
}

static size_t used(void *(*call)(void *)) {
    pthread_attr_t attr;
    pthread_t thread;
    size_t clean = 0;
    memset(space, PATTERN, SPACE);
    if (pthread_attr_init(&attr) || pthread_attr_setstack(&attr, space, SPACE) || pthread_create(&thread, &attr, call, NULL)
        || pthread_join(thread, NULL))
        exit(1);
    while (clean < SPACE && space[clean] == PATTERN)
        clean++;
    return SPACE - clean;
}

int main(int count, char **files) {
    size_t least = used(nothing);
    for (int i = 1; i < count; i++) {
        FILE *file = fopen(files[i], "rb");
        if (!file)
            return 1;
        doc_len = fread(doc, 1, sizeof doc, file);
        fclose(file);
        printf("%s: offer_read %zu, offer_findings %zu, offer_message %zu\n", files[i], used(reading) - least, used(findings) - least,
               used(message) - least);
    }
    return 0;
}
