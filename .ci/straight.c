/* Document 01's check in versions that .ci/checksum has to find out: DIVIDES, MULTIPLIES, CALLS, COPIES. Of a number that it knows a compiler
 * makes a remainder or a product by shifts; of a volatile one it cannot. */
#include <stddef.h>
#include <stdint.h>

#if defined DIVIDES
static volatile uint32_t modulus = 65535;
#define REMAINDER(x) ((x) % modulus)
#define UPPER(x) ((x) << 16)
#elif defined MULTIPLIES
static volatile uint32_t half = 65536;
#define REMAINDER(x) ((x) < 65535 ? (x) : (x)-65535)
#define UPPER(x) ((x)*half)
#elif defined CALLS
extern uint32_t remainder_of(uint32_t x);
#define REMAINDER(x) remainder_of(x)
#define UPPER(x) ((x) << 16)
#elif defined COPIES
#define REMAINDER(x) ((x) < 65535 ? (x) : (x)-65535)
#define UPPER(x) ((x) << 16)
#endif

uint32_t rope_checksum(const uint8_t *bytes, size_t length);

uint32_t rope_checksum(const uint8_t *bytes, size_t length) {
    uint32_t a = 1, b = 0;
    for (size_t i = 0; i < length; i++) {
        a = REMAINDER(a + bytes[i]);
        b = REMAINDER(b + a);
    }
    return UPPER(b) + a;
}
