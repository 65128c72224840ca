/* combinator_routes by the model, to try the driver without the library. */
#include "combinator.h"
#include "model.h"

uint32_t combinator_routes(uint64_t src, uint64_t dst, const uint8_t *book, size_t book_len, uint8_t *out, size_t out_len)
{
    return model_routes(src, dst, book, book_len, out, out_len);
}
