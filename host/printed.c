#include "printed.h"

#include <errno.h>
#include <stdio.h>
#include <string.h>

/* The reason of the first failure; 0 before it. */
static int problem;

/* Output is buffered, so a full disk or a closed pipe shows at any print, or only when the rest is written. */
bool printed_so_far(void)
{
    if (problem == 0 && ferror(stdout))
        problem = errno != 0 ? errno : EIO;
    return problem == 0;
}

bool printed_whole(void)
{
    if (!printed_so_far())
        return false;
    if (fflush(stdout) == 0)
        return true;
    problem = errno != 0 ? errno : EIO;
    return false;
}

const char *printed_problem(void)
{
    return strerror(problem);
}
