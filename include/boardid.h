/* boardid.h of the newest edition. */
#include "edition-4/boardid.h"
