// Builds two sources by way of their objects, and at once: both give the same executable. Then runs it.
//
//     c++ -std=c++17 -o together together.cpp $(pkg-config --cflags --libs rv)

#include <algorithm>
#include <cstdint>
#include <iostream>
#include <rv.h>
#include <stdexcept>
#include <string>
#include <string_view>
#include <vector>

namespace
{

using Bytes = std::vector<std::uint8_t>;

// Bytes of which some pointer exists, whatever their length.
const std::uint8_t *pointer(std::string_view bytes)
{
    return reinterpret_cast<const std::uint8_t *>(bytes.empty() ? "" : bytes.data());
}

// Several texts as the library takes them: one after the other, with the length of each.
struct Joined {
    std::string bytes;
    std::vector<std::uint64_t> lengths;

    void add(std::string_view text)
    {
        bytes += text;
        lengths.push_back(text.size());
    }
};

// The bytes of a call that was done; else throws what the library says.
std::string taken(std::uint32_t status, const rv_answer &answer, const Bytes &bytes)
{
    const std::string found(bytes.begin(), bytes.begin() + static_cast<std::ptrdiff_t>(
                                                               std::min<std::uint64_t>(answer.length, bytes.size())));
    if (status != RV_OK)
        throw std::runtime_error(status == RV_REFUSED ? found : "status " + std::to_string(status));
    return found;
}

std::string object_of(std::string_view source)
{
    Bytes object(1 << 16);
    rv_answer answer;
    const auto status = rv_as(pointer(source), source.size(), object.data(), object.size(), &answer);
    return taken(status, answer, object);
}

std::string linked(const Joined &objects)
{
    Bytes executable(1 << 16), map(1);
    rv_answer answer;
    const auto status =
        rv_ld(pointer(objects.bytes), objects.bytes.size(), objects.lengths.data(), objects.lengths.size(),
              RV_TEXT_START, 0, executable.data(), executable.size(), map.data(), 0, &answer);
    return taken(status, answer, executable);
}

std::string built(const Joined &sources)
{
    Bytes executable(1 << 16), map(1);
    rv_answer answer;
    const auto status =
        rv_build(pointer(sources.bytes), sources.bytes.size(), sources.lengths.data(), sources.lengths.size(),
                 RV_TEXT_START, 0, executable.data(), executable.size(), map.data(), 0, &answer);
    return taken(status, answer, executable);
}

// The exit code of an executable, whose console is written to standard output.
std::uint32_t run(std::string_view executable)
{
    Bytes console(1 << 16);
    rv_answer answer;
    rv_end end;
    std::uint64_t count;
    const auto status = rv_run(pointer(executable), executable.size(), pointer(""), 0, 1000000, console.data(),
                               console.size(), &end, &count, &answer);
    std::cout << taken(status, answer, console);
    if (end.kind != RV_EXITED)
        throw std::runtime_error("the program did not exit");
    return end.code;
}

} // namespace

int main()
{
    const std::string_view sources[] = {
        ".globl _start\n_start: la a0, word\nlw a0, 0(a0)\ncall twice\nli a7, 93\necall\n.data\nword: .word 21\n",
        ".globl twice\ntwice: slli a0, a0, 1\nret\n",
    };
    try {
        Joined texts, objects;
        for (const auto &source : sources) {
            texts.add(source);
            objects.add(object_of(source));
        }
        const auto executable = linked(objects);
        std::cout << (executable == built(texts) ? "the same" : "DIFFERENT") << ", exit " << run(executable) << '\n';
        // a name that nobody defines is refused, with its name
        objects = Joined{};
        objects.add(object_of(sources[0]));
        linked(objects);
    } catch (const std::exception &error) {
        std::cout << error.what() << '\n';
    }
}
