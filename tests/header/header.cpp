// The headers from C++11: constants where a constant is asked for, and empty vectors, whose data may be null.
#include "kodarfi_net.h"

#include <cstdint>
#include <cstdio>
#include <string>
#include <vector>

static_assert(sizeof(kodarfi_observation) == 32 && alignof(kodarfi_observation) == 8, "the layout that the header states");

static unsigned passed, failed;

static void test(const char *what, bool holds) {
    holds ? ++passed : ++failed;
    if (!holds) std::printf("FAILED %s\n", what);
}

static const char *said(std::uint32_t number) {
    switch (number) {
    case KODARFI_ACCEPTED: return "accepted";
    case KODARFI_TOO_SHORT: return "too short";
    case KODARFI_NOT_ENDED: return "not ended";
    default: return "refused";
    }
}

int main() {
    const std::vector<kodarfi_observation> no_lines;
    const std::vector<std::uint8_t> no_bytes;
    std::vector<std::int64_t> matrix(KODARFI_MATRIX_LENGTH, 5), right(KODARFI_COLUMN_LENGTH, 5), none;
    test("no lines", said(kodarfi_build(2, no_lines.data(), no_lines.size(), matrix.data(), matrix.size(), right.data(), right.size())) == said(0));
    test("all zeros", matrix[0] == 0 && matrix[3] == 0 && matrix[4] == 5 && right[1] == 0 && right[2] == 5);
    test("no matrix", said(kodarfi_build(2, no_lines.data(), no_lines.size(), none.data(), none.size(), right.data(), right.size())) == said(KODARFI_TOO_SHORT));
    std::vector<std::uint8_t> listing(KODARFI_LISTING_LENGTH);
    std::size_t written = 0;
    std::uint64_t places[2];
    test("an empty file", said(kodarfi_listing(no_bytes.data(), no_bytes.size(), listing.data(), &written, places)) == said(KODARFI_NOT_ENDED) && written == 17);
    // document 01's whole file, as a net
    static kodarfi_net net;
    static kodarfi_bounds bounds;
    kodarfi_refusal refusal;
    kodarfi_net_clear(&net, 2, 4, 4);
    const std::int64_t numbers[6][2] = {{4, -1}, {-1, 3}, {4, 1}, {1, 6}, {5, 1}, {23, 13}};
    for (int j = 0; j < 2; ++j) {
        net.matrix[j] = numbers[0][j], net.matrix[2 + j] = numbers[1][j];
        net.inverse[j] = numbers[2][j], net.inverse[2 + j] = numbers[3][j];
        net.right[j] = numbers[4][j], net.guess[j] = numbers[5][j];
    }
    test("a net", kodarfi_net_check(&net, &bounds, &refusal) == KODARFI_ACCEPTED && bounds.solution[0] == 1 && bounds.solution[1] == 1 && bounds.inverse[3] == 1);
    net.guess[0] = 20;
    char text[2048];
    test("a poor guess", kodarfi_net_check(&net, &bounds, &refusal) == KODARFI_RESIDUAL && refusal.places[0] == 1);
    test("its words", kodarfi_text(&refusal, text, sizeof text) < sizeof text && std::string(text).find("refused with 6, row 1: ") == 0);
    std::printf("%u passed, %u failed\n", passed, failed);
    return failed != 0;
}
