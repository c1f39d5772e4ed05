// The C++ wrapper runs a kernel on a vector of its own, from two threads, opens sessions, makes and attaches certificates, and throws what is
// refused. Prints nothing and ends with 0.
#include "rvvbox.hpp"
#include <algorithm>
#include <cstdio>
#include <cstdlib>
#include <fstream>
#include <iterator>
#include <span>
#include <string>
#include <thread>
#include <vector>

#define EXPECT(holds) do { if (!(holds)) { std::fprintf(stderr, "line %d: %s\n", __LINE__, #holds); std::exit(1); } } while (0)

static std::vector<uint8_t> bytes_of(const char *name) {
    std::ifstream file(name, std::ios::binary);
    return {std::istreambuf_iterator<char>(file), {}};
}

// The certificate of an image: behind the name of its note, whose padded length is 8.
static std::span<const uint8_t> certificate_in(std::span<const uint8_t> image) {
    const std::string name = "RVVBOX";
    const size_t at = static_cast<size_t>(std::search(image.begin(), image.end(), name.begin(), name.end()) - image.begin());
    return image.subspan(at + 8, image[at - 8] + 256u * image[at - 7]);
}

// What is made of an image without a certificate, and what it becomes with another's, is accepted and runs.
static void makes(const std::vector<uint8_t> &image, const std::vector<uint8_t> &before, const std::vector<uint8_t> &expected) {
    const auto bare = bytes_of("bare.elf");
    const auto made = rvvbox::make(bare, 128, {rvvbox::buffer(4096), rvvbox::scalar(0, 1024)});
    EXPECT(made == image && rvvbox::attach(bare, certificate_in(image)) == image);
    auto words = before;
    rvvbox::kernel kernel(made, 128);
    EXPECT(kernel.run(10000, words, 1000) == 2002 && words == expected);
    EXPECT(rvvbox::make(bare, 128, kernel.parameters()) == image);
    try {
        rvvbox::make(bare, 128, {rvvbox::buffer(4095), rvvbox::scalar(0, 1024)});
        EXPECT(false);
    } catch (const rvvbox::refused &refused) {
        EXPECT(refused.why.status == RVVBOX_NOT_A_LOOP && refused.why.address == 0x10008);
    }
    try {
        rvvbox::make(bare, 128, {rvvbox::buffer(4096), rvvbox::scalar(1025, 1024)});
        EXPECT(false);
    } catch (const rvvbox::refused &refused) {
        EXPECT(refused.why.status == RVVBOX_BAD_PARAMETER && refused.why.place == 1);
    }
    try {
        rvvbox::attach(image, certificate_in(image));
        EXPECT(false);
    } catch (const rvvbox::refused &refused) {
        EXPECT(refused.why.status == RVVBOX_IMAGE && refused.why.rule == RVVBOX_IMAGE_CERTIFICATE_THERE);
    }
}

int main() {
    const auto image = bytes_of("raise_words.elf"), before = bytes_of("a.bin"), expected = bytes_of("expected.bin");
    rvvbox::kernel kernel(image, 128);
    EXPECT(kernel.vlen() == 128 && kernel.parameters()[1].hi == 1024 && kernel.bound({0, 1000, 0, 0, 0, 0, 0, 0}).low == 8002);
    auto words = before, others = before;
    std::thread thread([&others, shared = kernel.share()]() mutable { shared.run(10000, others, 1000); });
    EXPECT(kernel.run(10000, words, 1000) == 2002 && words == expected);
    thread.join();
    EXPECT(others == expected);
    EXPECT(kernel.run(10000, before, 1000) == 2002);
    words = before;
    auto session = kernel.open(10000, words, 1000);
    EXPECT(!session.go_on(2001).ended && session.registers().x[0] == 0);
    std::thread other([session = std::move(session), &words]() mutable {
        EXPECT(session.go_on(1).ended && session.registers().steps == 2002);
        std::vector<uint8_t> seen(words.size());
        session.peek(0x40000000, seen);
        EXPECT(words != seen);
        session.close(words);
        EXPECT(words == seen);
    });
    other.join();
    EXPECT(words == expected);
    words = before;
    auto again = kernel.open(10000, words, 1000);
    again.close(words);
    EXPECT(words == before);
    kernel.open_again(again, 10000, words, 1000);
    try {
        kernel.open_again(again, 10000, words, 1025);
        EXPECT(false);
    } catch (const rvvbox::refused &refused) {
        EXPECT(refused.why.status == RVVBOX_SCALAR_OUT_OF_INTERVAL && again.go_on(10000).steps == 2002);
    }
    again.close(words);
    EXPECT(words == expected);
    try {
        kernel.open(10000, words, 1025);
        EXPECT(false);
    } catch (const rvvbox::refused &refused) {
        EXPECT(refused.why.status == RVVBOX_SCALAR_OUT_OF_INTERVAL && refused.why.place == 1);
    }
    try {
        kernel.run(10000, words, 1025);
        EXPECT(false);
    } catch (const rvvbox::refused &refused) {
        EXPECT(refused.why.status == RVVBOX_SCALAR_OUT_OF_INTERVAL && refused.why.place == 1 && words == expected);
    }
    try {
        rvvbox::kernel none(image, 256);
        EXPECT(false);
    } catch (const rvvbox::refused &refused) {
        EXPECT(std::string(refused.what()) == "rvvbox: CHECK" && refused.explanation.find("wanted: VLEN 256") != std::string::npos);
    }
    makes(image, before, expected);
    rvvbox_bound bound{};
    return static_cast<int>(bound.low);
}
