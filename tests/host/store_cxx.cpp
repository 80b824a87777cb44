// A host in C++ of examples/store.h and slc1.h: both headers are C++ too, and their names are found by a C++ linker.
#include <cstdio>

#include "slc1.h"
#include "store.h"

// usage: store_cxx FILE
int main(int, char **words)
{
    const slc1_options options = {12, 20, 512, 1, 0, SLC1_NO_WRITER_KNOWN};
    const store_records none = {nullptr, 0};
    store_writer writer;
    store_reader reader;
    uint32_t answer = store_create(words[1], &options);

    if (answer == SLC1_DONE && (answer = store_open_writer(&writer, words[1], &options)) == SLC1_DONE) {
        answer = store_update(&writer, &none);
        store_close_writer(&writer);
    }
    if (answer == SLC1_DONE && (answer = store_open_reader(&reader, words[1], &options, STORE_VERIFY)) == SLC1_DONE) {
        answer = store_read(&reader);
        if (answer == SLC1_DONE)
            answer = slc1_full_check(STORE_LENT(&reader.image));
        store_close_reader(&reader);
    }
    if (answer != SLC1_DONE)
        std::printf("store_cxx: %s\n", store_text(answer));
    return static_cast<int>(answer);
}
