/* routine check FILE..: one line for each file, accepted or refused. */
#include "commands.h"

#include <inttypes.h>
#include <stdio.h>

#include "file.h"
#include "printed.h"
#include "vtil.h"
#include "words.h"

static enum status print_refused(int64_t number)
{
    printf("refused %" PRId64 ": %s\n", number, refusal_words(number));
    return SOME_REFUSED;
}

static enum status print_accepted(size_t consumed, size_t len)
{
    printf("accepted, %zu bytes consumed", consumed);
    if (consumed < len)
        printf(", %zu byte%s after it ignored", len - consumed, plural(len - consumed));
    printf("\n");
    return ALL_ACCEPTED;
}

static enum status check_one(const char *name)
{
    struct file file;
    const char *problem = file_read(name, SIZE_MAX, &file);
    if (problem != NULL) {
        say_unread(name, problem);
        return TROUBLE;
    }
    int64_t answer = vtil_check(file.bytes, file.len);
    print_name(stdout, name);
    printf(": ");
    enum status status = answer < 0 ? print_refused(-answer) : print_accepted((size_t)answer, file.len);
    file_free(&file);
    return status;
}

enum status check_command(const struct request *request)
{
    enum status status = ALL_ACCEPTED;
    /* Where the output fails there is nothing to go on for: that it does is said at the end. */
    for (int i = 0; i < request->count && printed_so_far(); i++)
        status = worse(status, check_one(request->files[i]));
    return status;
}
