// How a store of records keeps the pages: a record of 4,096 bytes a page, or, with -DBY_LINE, one of 64 bytes a line.
#pragma once
#include "round.h"

#ifdef BY_LINE
enum { RECORD_LINES = 1 };
#else
enum { RECORD_LINES = LINES };
#endif
enum { RECORDS = PAGES * LINES / RECORD_LINES, SIZE = 64 * RECORD_LINES };
