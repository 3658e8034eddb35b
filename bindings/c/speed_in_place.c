/* The header in place of qoi.h, its calls under other names. */
#define qoi_encode in_place_encode
#define qoi_decode in_place_decode
#define QOI_NO_STDIO
#define QOI_IMPLEMENTATION
#include "qoi_proved/qoi.h"
