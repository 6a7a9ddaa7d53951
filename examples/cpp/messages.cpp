// Reads bytes as they were heard on a HART line from standard input, and prints a line for each message as soon as it is decided, as
// `hart dump` does.
#include "hart.h"

#include <array>
#include <cstdio>
#include <string>
#include <unistd.h>
#include <vector>

namespace {

std::string hex(const std::uint8_t *bytes, std::size_t len)
{
    std::string text;
    std::array<char, 3> digits{};
    for (std::size_t i = 0; i < len; i++) {
        std::snprintf(digits.data(), digits.size(), "%02X", bytes[i]);
        text += digits.data();
    }
    return text.empty() ? "-" : text;
}

std::string address(const hart_frame &frame)
{
    if (!frame.is_unique)
        return "@" + std::to_string(frame.polling_address);
    if (frame.expanded_type == 0 && frame.device_id == 0)
        return "all";
    std::array<char, 11> digits{};
    std::snprintf(digits.data(), digits.size(), "%04X%06X", static_cast<unsigned>(frame.expanded_type),
                  static_cast<unsigned>(frame.device_id));
    return digits.data();
}

// Finds the frames of bytes as they come in, in whatever pieces, and prints them.
class Finder {
public:
    void hear(const std::uint8_t *bytes, std::size_t len)
    {
        held.insert(held.end(), bytes, bytes + len);
        print_found(false);
    }

    void end() { print_found(true); }

private:
    void print_found(bool ended)
    {
        hart_search found{};
        do {
            // An empty vector may have a null pointer, which must not be passed.
            static const std::uint8_t none = 0;
            found = hart_find_in_bytes(held.empty() ? &none : held.data(), held.size(), ended, frames.data(), frames.size());
            for (std::size_t i = 0; i < found.count; i++)
                print(frames[i]);
            held.erase(held.begin(), held.begin() + static_cast<std::ptrdiff_t>(found.used));
            used += found.used;
        } while (found.count == frames.size());
        std::fflush(stdout);
    }

    void print(const hart_frame &frame) const
    {
        std::printf("%llu %llu %s %s %d %s %s %u %s\n", static_cast<unsigned long long>(used + frame.start),
                    static_cast<unsigned long long>(used + frame.stop), frame.is_reply ? "ACK" : "STX", frame.is_primary ? "P" : "S",
                    frame.is_burst ? 1 : 0, address(frame).c_str(), hex(frame.expansion, frame.expansion_len).c_str(),
                    static_cast<unsigned>(frame.command), hex(frame.payload, frame.payload_len).c_str());
    }

    std::vector<std::uint8_t> held;
    std::array<hart_frame, 16> frames{};
    unsigned long long used = 0;
};

} // namespace

int main()
{
    Finder finder;
    std::array<std::uint8_t, 4096> bytes{};
    for (;;) {
        const ssize_t got = read(STDIN_FILENO, bytes.data(), bytes.size());
        if (got < 0) {
            std::perror("read");
            return 1;
        }
        if (got == 0) {
            finder.end();
            return 0;
        }
        finder.hear(bytes.data(), static_cast<std::size_t>(got));
    }
}
