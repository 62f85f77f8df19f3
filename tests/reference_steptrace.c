/*
 * The script program made from the reference, as a stand-in for the real one:
 * tests/selftest runs the tests of the script program against it.
 */
#include <stdio.h>

#include "reference.h"

int main(void)
{
    static uint8_t in[SCRIPT_INPUT_MOST + 1], out[SCRIPT_OUTPUT_MOST];
    size_t len = fread(in, 1, sizeof in, stdin);
    size_t used = ref_script(in, len, out);
    fwrite(out, 1, used, stdout);
    return 0;
}
