/* The library's functions, each taken out of the shared library by dlopen: linked with a host in the library's place. The shared
 * library is the one that COMBINATOR_SHARED names. */
#include <dlfcn.h>
#include <stdio.h>
#include <stdlib.h>
#include <string.h>

#include "combinator.h"

/* The address of a function, into `function`: ISO C casts no object pointer to a function pointer. */
static void load(const char *name, void *function, size_t size)
{
    static void *library;
    const char *file = getenv("COMBINATOR_SHARED");
    void *found;
    if (!library && file)
        library = dlopen(file, RTLD_NOW | RTLD_LOCAL);
    found = library ? dlsym(library, name) : NULL;
    if (!found) {
        fprintf(stderr, "loaded: %s\n", file ? dlerror() : "COMBINATOR_SHARED is not set");
        exit(1);
    }
    memcpy(function, &found, size);
}

uint32_t combinator_list(uint64_t src, uint64_t dst, const uint8_t *book, size_t book_len, uint8_t *out, size_t out_len)
{
    uint32_t (*list)(uint64_t, uint64_t, const uint8_t *, size_t, uint8_t *, size_t);
    load("combinator_list", &list, sizeof list);
    return list(src, dst, book, book_len, out, out_len);
}

uint32_t combinator_routes(uint64_t src, uint64_t dst, const uint8_t *book, size_t book_len, uint8_t *out, size_t out_len)
{
    uint32_t (*routes)(uint64_t, uint64_t, const uint8_t *, size_t, uint8_t *, size_t);
    load("combinator_routes", &routes, sizeof routes);
    return routes(src, dst, book, book_len, out, out_len);
}

uint32_t combinator_assemble(uint64_t src, uint64_t dst, const uint8_t *book, size_t book_len, const uint8_t *record, size_t record_len,
                             uint8_t *out, size_t out_len)
{
    uint32_t (*assemble)(uint64_t, uint64_t, const uint8_t *, size_t, const uint8_t *, size_t, uint8_t *, size_t);
    load("combinator_assemble", &assemble, sizeof assemble);
    return assemble(src, dst, book, book_len, record, record_len, out, out_len);
}

uint32_t combinator_write(const uint8_t *path, size_t path_len, uint8_t *out, size_t out_len)
{
    uint32_t (*write)(const uint8_t *, size_t, uint8_t *, size_t);
    load("combinator_write", &write, sizeof write);
    return write(path, path_len, out, out_len);
}

uint32_t combinator_read(const uint8_t *wire, size_t wire_len, uint8_t *out, size_t out_len)
{
    uint32_t (*read)(const uint8_t *, size_t, uint8_t *, size_t);
    load("combinator_read", &read, sizeof read);
    return read(wire, wire_len, out, out_len);
}
