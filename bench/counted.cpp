// plain.cpp itself, so that what is counted is what is timed.
#include "counted.h"

Tally tally;

#define TALLY(what) (tally.what++)
#define plain_build counted_build
#include "plain.cpp"
