/* Prints the words that the C header has for every refusal and violation, a line
   each, and the version: the gate compares them with those of the Rust crate.

       gcc -Iinclude -o words tests/words.c && words */
#include <inttypes.h>
#include <stdio.h>

#include "upload.h"

int main(void)
{
    for (uint32_t number = 1; number <= UPLOAD_PROGRAMME; number++)
        printf("%" PRIu32 " %s\n", number, upload_refusal_words(number));
    for (uint64_t number = 1; number <= UPLOAD_SECOND_BUCKET_OVER; number++)
        printf("violation %" PRIu64 " %s\n", number, upload_violation_words(number));
    printf("version %s\n", UPLOAD_VERSION);
    return 0;
}
