// The listing of a file, from C++: listing FILE. Exit status 0 where the file is accepted, 1 where it is refused, 2 where it cannot be read or written.
#include "kodarfi.h"

#include <fstream>
#include <iostream>
#include <vector>

int main(int argc, char **argv) {
    if (argc != 2) return 2;
    std::ifstream in(argv[1], std::ios::binary);
    // the first 65,536 bytes decide every file
    std::vector<char> file(65536);
    in.read(file.data(), file.size());
    if (in.bad() || (in.fail() && !in.eof())) return 2;
    std::vector<uint8_t> listing(32768);
    std::size_t written;
    std::uint64_t places[2];
    const std::uint32_t number = kodarfi_listing(reinterpret_cast<const std::uint8_t *>(file.data()), in.gcount(), listing.data(), &written, places);
    std::cout.write(reinterpret_cast<const char *>(listing.data()), written).flush();
    return std::cout ? number != 0 : 2;
}
