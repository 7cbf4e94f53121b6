/* Checks each argument as a partial reference name, and mends it. From the folder host:
       mkdir -p ../target && cc -Wall -Wextra -Iinclude examples/example.c ../crates/gushteral_c/out/libgushteral_c.a -o ../target/example
       ../target/example main 'Dr. Jones*' @ */
#include <stdio.h>
#include <string.h>
#include "gushteral.h"

int main(int argc, char **argv) {
    for (int i = 1; i < argc; i++) {
        const uint8_t *text = (const uint8_t *)argv[i];
        uint8_t handle[256], words[GUSHTERAL_WORDS_ROOM];
        GushteralNameAnswer check = gushteral_reference_name_partial(text, strlen(argv[i]));
        GushteralTextAnswer said = gushteral_refusal_text(check.number, check.value, words, sizeof words);
        GushteralTextAnswer mend =
            gushteral_reference_name_partial_or_sanitize(text, strlen(argv[i]), handle, sizeof handle);
        printf("%s: number %u", argv[i], check.number);
        if (check.number != 0) printf(" (%.*s)", (int)said.length, (const char *)words);
        if (mend.number == 0) printf(", mended %.*s\n", (int)mend.length, (const char *)handle);
        else printf(", too long to mend here (%u)\n", mend.number);
    }
    return 0;
}
