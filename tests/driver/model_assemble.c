/* combinator_assemble by the model, to try the driver without the library. */
#include "combinator.h"
#include "model.h"

uint32_t combinator_assemble(uint64_t src, uint64_t dst, const uint8_t *book, size_t book_len, const uint8_t *record, size_t record_len,
                             uint8_t *out, size_t out_len)
{
    return model_assemble(src, dst, book, book_len, record, record_len, out, out_len);
}
