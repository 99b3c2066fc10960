/*
** version.c: the version of the library that is linked. The number of the library stands in geosvm.h and nowhere else; the programs have
** theirs in crates/command_lines/src/geosvm.rt and crates/document_commands/src/commands.rt. checks/installed.sh compares them.
*/
#include "geosvm.h"

const char *geosvm_version(void) { return GEOSVM_VERSION; }
