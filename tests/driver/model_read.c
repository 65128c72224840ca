/* combinator_read by the model, to try the driver without the library. */
#include "combinator.h"
#include "model.h"

uint32_t combinator_read(const uint8_t *wire, size_t wire_len, uint8_t *out, size_t out_len)
{
    return model_read(wire, wire_len, out, out_len);
}
