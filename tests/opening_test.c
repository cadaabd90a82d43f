/* Opens a store by the library, says `recovered`, and ends without a close; for tests/power.sh.

   usage: opening_test FOLDER */
#include "lcrvm.h"

#include <stdio.h>
#include <unistd.h>

int main(int argc, char **argv)
{
    static const char said[] = "recovered\n";
    struct lcrvm_store *store;
    struct lcrvm_fault fault = {.size = sizeof fault};
    enum lcrvm_status status = argc == 2 ? lcrvm_open(argv[1], NULL, &store, &fault) : LCRVM_MISUSE;

    if (status == LCRVM_OK && write(STDOUT_FILENO, said, sizeof said - 1) == (ssize_t)(sizeof said - 1))
        _exit(0);
    fprintf(stderr, "%s\n", argc == 2 ? fault.text : "usage: opening_test FOLDER");
    return 3;
}
