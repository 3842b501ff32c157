/* What libsundial.so has beside the proved library: a symbol for each call whose body is in a header. install.sh
 * links both. */
#define SUNDIAL_INLINE
#include "sundial_clock.h"
