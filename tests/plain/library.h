/* Both sides of a comparison. */
#ifndef LIBRARY_H
#define LIBRARY_H

#include "../../include/exporter.h"
#include "plain.h"

#endif
