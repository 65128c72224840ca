/* combinator_write by the model, to try the driver without the library. */
#include "combinator.h"
#include "model.h"

uint32_t combinator_write(const uint8_t *path, size_t path_len, uint8_t *out, size_t out_len)
{
    return model_write(path, path_len, out, out_len);
}
