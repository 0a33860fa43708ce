/* basic [ROOM] < BASIC: writes the tabulated file of a basic file, or its refusal (tests/plain/convert.h). */
#include "../../include/exporter.h"
#include "../plain/convert.h"

int main(int count, char **words)
{
    return convert(exporter_tabulate, EXPORTER_TREE_FILE, count > 1 ? words[1] : NULL);
}
