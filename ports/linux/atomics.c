/* Atomic steps by the names that compiled code for ARM asks for. A C compiler's own library takes the instructions of
   newer processors there, where it finds them; these are the first processor's. */
#ifdef __aarch64__
#include <stdint.h>

uint64_t __aarch64_swp8_acq_rel(uint64_t value, uint64_t *at) {
    return __atomic_exchange_n(at, value, __ATOMIC_ACQ_REL);
}
#endif
