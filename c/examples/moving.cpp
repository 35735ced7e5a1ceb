// A class of C++ that holds a controller and has a move, so that controllers may lie in a std::vector. Each is moved
// in the middle of a command, when the vector grows. Then each goes on with its command in a thread of its own.
#include "telwyddus.h"
#include <algorithm>
#include <cstdint>
#include <cstdio>
#include <cstdlib>
#include <thread>
#include <utility>
#include <vector>

namespace {

void must(std::uint32_t code) {
    if (code == TELWYDDUS_DONE) return;
    std::fprintf(stderr, "%s\n", telwyddus_code_name(code));
    std::exit(1);
}

class Controller {
public:
    Controller() { must(telwyddus_controller_new(&slot)); }
    ~Controller() { telwyddus_controller_free(&slot); }
    Controller(const Controller &) = delete;
    Controller &operator=(const Controller &) = delete;

    // The other one holds nothing afterwards: every call on it answers EMPTY.
    Controller(Controller &&other) noexcept { take(other); }
    Controller &operator=(Controller &&other) noexcept {
        if (this == &other) return *this;
        telwyddus_controller_free(&slot);
        take(other);
        return *this;
    }

    void write(std::uint16_t port, std::uint8_t value) { must(telwyddus_controller_write(&slot, port, value, &lines)); }

    std::uint8_t read(std::uint16_t port) {
        std::uint8_t value;
        must(telwyddus_controller_read(&slot, port, &value, &lines));
        return value;
    }

    void run(std::uint32_t most) {
        std::uint32_t made;
        must(telwyddus_controller_run(&slot, most, &made, &lines));
    }

    std::uint8_t cylinder() {
        std::uint8_t found, signs;
        must(telwyddus_controller_bay(&slot, 0, &found, &signs));
        return found;
    }

    bool is_empty() {
        std::uint8_t now;
        return telwyddus_controller_lines(&slot, &now) == TELWYDDUS_EMPTY;
    }

private:
    // The slot here is empty, so a move can't answer FULL. If the other one is empty, both stay empty.
    void take(Controller &other) noexcept {
        telwyddus_controller_move(&slot, &other.slot);
        lines = other.lines;
    }

    telwyddus_controller slot = {};
    std::uint8_t lines = 0;
};

void check(bool is_so, const char *what) {
    std::printf("%s: %s\n", what, is_so ? "yes" : "NO");
    if (!is_so) std::exit(1);
}

// Takes a controller out of reset, with its four reports, and sends a SEEK but for its last byte, the cylinder.
void begin_seek(Controller &controller) {
    controller.write(0x3F2, 0x1C);
    controller.write(0x3F7, 0x00);
    controller.run(1000);
    for (int i = 0; i < 4; i++) {
        controller.write(0x3F5, 0x08);
        controller.read(0x3F5);
        controller.read(0x3F5);
    }
    controller.write(0x3F5, 0x0F);
    controller.write(0x3F5, 0x00);
}

// Sends the cylinder. True if the seek ends there.
bool seeks(Controller &controller, std::uint8_t cylinder) {
    controller.write(0x3F5, cylinder);
    controller.run(1000);
    controller.write(0x3F5, 0x08);
    return controller.read(0x3F5) == 0x20 && controller.read(0x3F5) == cylinder && controller.cylinder() == cylinder;
}

} // namespace

int main() {
    std::vector<Controller> all;
    for (int i = 0; i < 9; i++) {
        all.emplace_back();
        begin_seek(all.back());
    }
    // Calls on different slots may run at the same time. What each thread found is in a byte of its own.
    std::vector<char> found(all.size());
    std::vector<std::thread> threads;
    for (std::size_t i = 0; i < all.size(); i++)
        threads.emplace_back([&all, &found, i] { found[i] = seeks(all[i], static_cast<std::uint8_t>(10 * i)); });
    for (std::thread &thread : threads) thread.join();
    check(std::count(found.begin(), found.end(), 1) == 9, "each controller goes on where the vector has moved it");

    std::reverse(all.begin(), all.end());
    all.erase(all.begin() + 1);
    check(all.size() == 8 && all[0].cylinder() == 80 && all[1].cylinder() == 60 && all[7].cylinder() == 0, "they are put in another order, and one is taken out");

    Controller other = std::move(all[0]);
    check(other.cylinder() == 80 && all[0].is_empty(), "one is moved out, and leaves nothing behind");
    all[0] = std::move(other);
    check(all[0].cylinder() == 80 && other.is_empty(), "and moved in again");
    return 0;
}
