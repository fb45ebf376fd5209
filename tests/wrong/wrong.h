/* For the wrong objects: the header, and RIGHT(export) to declare the archive's own function as right_export. */
#ifndef WRONG_H
#define WRONG_H

#include <stddef.h>
#include <stdint.h>
#include <string.h>

#include "barkmottle.h"

#define RIGHT(export) extern __typeof__(barkmottle_##export) right_##export;

#endif
