/* Passes NULL with length 0 to every call, and ends with status 1 where an answer is not the one for no bytes. From the
   folder host:
       mkdir -p ../target && cc -Wall -Wextra -Iinclude examples/null.c ../crates/gushteral_c/out/libgushteral_c.a -o ../target/null
       ../target/null */
#include <stdio.h>
#include <string.h>
#include "gushteral.h"

static int wrong = 0;

static void expect(int holds, const char *call) {
    if (!holds) {
        printf("wrong: %s\n", call);
        wrong = 1;
    }
}

static int is_empty(GushteralNameAnswer answer) {
    return answer.number == GUSHTERAL_EMPTY && answer.value == 0;
}

static int is(GushteralTextAnswer answer, uint32_t number, size_t length) {
    return answer.number == number && answer.length == length;
}

int main(void) {
    const uint8_t name[4] = {'n', 'a', 'm', 'e'};
    uint8_t out[2] = {7, 7};

    expect(is_empty(gushteral_tag_name(NULL, 0)), "tag_name");
    expect(is_empty(gushteral_reference_name_partial(NULL, 0)), "reference_name_partial");
    expect(is_empty(gushteral_reference_name(NULL, 0)), "reference_name");
    expect(is_empty(gushteral_reference_branch_name(NULL, 0)), "reference_branch_name");

    expect(is(gushteral_reference_name_partial_or_sanitize(NULL, 0, NULL, 0), GUSHTERAL_BUFFER_TOO_SHORT, 0),
           "reference_name_partial_or_sanitize");
    expect(is(gushteral_reference_name_partial_or_sanitize(name, 4, NULL, 0), GUSHTERAL_BUFFER_TOO_SHORT, 0),
           "reference_name_partial_or_sanitize with no buffer");
    expect(is(gushteral_reference_name_partial_or_sanitize(NULL, 0, out, 2), 0, 1) && out[0] == '-' && out[1] == 7,
           "reference_name_partial_or_sanitize with no input");

    expect(gushteral_path_component(NULL, 0, 0, 0, 0, 0) == GUSHTERAL_COMPONENT_EMPTY, "path_component");
    expect(gushteral_path_component(NULL, 0, 1, 1, 1, 1) == GUSHTERAL_COMPONENT_EMPTY,
           "path_component with a link and all protections");
    expect(gushteral_path_component_is_windows_device(NULL, 0) == 0, "path_component_is_windows_device");

    memset(out, 7, sizeof out);
    expect(gushteral_enter_all(NULL, 0, 0, NULL, 0) == 0, "enter_all");
    expect(gushteral_enter_all(name, 4, 4, NULL, 0) == 0, "enter_all with no answers");
    expect(gushteral_enter_all(NULL, 0, 4, out, 2) == 0 && out[0] == 7 && out[1] == 7, "enter_all with no names");

    expect(is(gushteral_refusal_text(GUSHTERAL_EMPTY, 0, NULL, 0), GUSHTERAL_BUFFER_TOO_SHORT, 0), "refusal_text");
    expect(is(gushteral_refusal_text(GUSHTERAL_INVALID_BYTE, ' ', NULL, 0), GUSHTERAL_BUFFER_TOO_SHORT, 0),
           "refusal_text of 1");
    expect(is(gushteral_refusal_text(GUSHTERAL_ALLOWED, 0, NULL, 0), 0, 0), "refusal_text of no refusal");

    if (!wrong) puts("all calls take NULL");
    return wrong;
}
