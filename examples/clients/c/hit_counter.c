/* Counts hits of pages: each hit is one Merge, with a program that adds. So no hit of any client is lost.
 * hit_counter HOST PORT */
#include "bpfmap_client.h"
#include <stdio.h>
#include <stdlib.h>

/* examples/c/counter.c, as examples/c/build makes it of clang 14: the argument is added to the old value. */
static const uint8_t sum[] = {
    0x79, 0x21, 0x00, 0x00, 0x00, 0x00, 0x00, 0x00,
    0x79, 0x32, 0x00, 0x00, 0x00, 0x00, 0x00, 0x00,
    0x0f, 0x12, 0x00, 0x00, 0x00, 0x00, 0x00, 0x00,
    0x7b, 0x24, 0x00, 0x00, 0x00, 0x00, 0x00, 0x00,
    0xb7, 0x00, 0x00, 0x00, 0x08, 0x00, 0x00, 0x00,
    0x95, 0x00, 0x00, 0x00, 0x00, 0x00, 0x00, 0x00,
};
static struct bpfmap_client client;

/* Ends the program unless the call was made and its answer is a value. */
static void need(enum bpfmap_status status)
{
    if (status == BPFMAP_OK)
        return;
    fprintf(stderr, "hit_counter: %s\n", bpfmap_explain(&client, status));
    exit(1);
}

int main(int count, char **word)
{
    static const char *const pages[] = {"/", "/about", "/", "/", "/about"};
    struct bpfmap_program program = bpfmap_program_of(bpfmap_windows(64, 8, 8, 8), bpfmap_bytes(sum, sizeof sum));
    struct bpfmap_reply reply;
    uint8_t one[8];
    if (count != 3) {
        fprintf(stderr, "hit_counter HOST PORT\n");
        return 2;
    }
    need(bpfmap_connect(&client, word[1], word[2], 5000));
    bpfmap_store64(one, 1);
    for (size_t i = 0; i < sizeof pages / sizeof *pages; i++) {
        need(bpfmap_merge(&client, bpfmap_text(pages[i]), bpfmap_bytes(one, sizeof one), &program, &reply));
        printf("%s %llu\n", pages[i], (unsigned long long)bpfmap_load64(reply.value));
    }
    bpfmap_close(&client);
    return 0;
}
