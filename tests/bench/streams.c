/* Writes a stream of an input, for the listing programs: the input's name and the form's are its arguments. */
#include <stdio.h>
#include <string.h>

#include "inputs.h"

enum { SIZE = 64 << 20 };

int main(int argc, char **argv)
{
    if (argc != 3)
        return 1;
    struct input input = make_input(argv[1], SIZE);
    const struct bytes *stream = &input.forms[strcmp(argv[2], form_names[ONE_FLAG]) == 0 ? ONE_FLAG : TWO_FLAGS];
    size_t written = fwrite(stream->at, 1, stream->length, stdout);
    int whole = written == stream->length && fflush(stdout) == 0;
    free_input(&input);
    return whole ? 0 : 1;
}
