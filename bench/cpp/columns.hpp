// Columns of numbers in a file, one after another, as numpy writes them; and a process's own time.
#pragma once
#include <cstdint>
#include <cstdio>
#include <cstdlib>
#include <ctime>
#include <string>
#include <vector>

using Numbers = std::vector<uint32_t>;

[[noreturn]] inline void stop(const std::string &why) {
    std::fprintf(stderr, "%s\n", why.c_str());
    std::exit(1);
}

// As many columns of one length as a file has.
inline std::vector<Numbers> read_columns(const char *path, size_t count) {
    std::FILE *file = std::fopen(path, "rb");
    if (!file || std::fseek(file, 0, SEEK_END)) stop(std::string("can't read ") + path);
    size_t length = static_cast<size_t>(std::ftell(file)) / sizeof(uint32_t) / count;
    std::rewind(file);
    std::vector<Numbers> columns(count, Numbers(length));
    for (Numbers &it : columns)
        if (std::fread(it.data(), sizeof(uint32_t), length, file) != length) stop(std::string("too short: ") + path);
    std::fclose(file);
    return columns;
}

inline void write_column(std::FILE *file, const Numbers &column) {
    if (std::fwrite(column.data(), sizeof(uint32_t), column.size(), file) != column.size()) stop("can't write");
}

// Seconds of the processor, of all threads.
inline double processor() {
    timespec now;
    clock_gettime(CLOCK_PROCESS_CPUTIME_ID, &now);
    return static_cast<double>(now.tv_sec) + static_cast<double>(now.tv_nsec) * 1e-9;
}
