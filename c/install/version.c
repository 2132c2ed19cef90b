/* The one call that isn't of the proved crate: the version is that of what is installed, headers and library, and not of the map. */
#include <corv/version.h>

const char *corv_version(void) { return CORV_VERSION; }
