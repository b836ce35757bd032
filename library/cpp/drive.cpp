// A session that closes itself, and throws what was not done; the drive of c/drive.c by it.
#include "../streetsim.h"
#include <cstring>
#include <iostream>
#include <stdexcept>
#include <string>
#include <vector>

namespace streetsim {

class Session {
public:
    Session() { check(streetsim_open(&handle_)); }
    ~Session() { streetsim_close(&handle_); }
    Session(const Session &) = delete;  // a handle is never copied
    Session &operator=(const Session &) = delete;

    // The reply's line to a line.
    std::string line(const std::string &text) {
        std::size_t bytes = 0;
        auto *begin = reinterpret_cast<const unsigned char *>(text.data());
        std::uint32_t status = streetsim_line(&handle_, begin, text.size(), room_.data(), room_.size(), &bytes);
        return told(status, bytes);
    }

    std::uint64_t enter(const std::vector<std::uint64_t> &plan, std::uint64_t depart) {
        std::uint64_t car = 0;
        check(streetsim_enter(&handle_, plan.data(), plan.size(), 0, depart, 1, &car));
        return car;
    }

    std::uint64_t advance(std::uint64_t steps) {
        std::uint64_t clock = 0;
        check(streetsim_advance(&handle_, steps, &clock));
        return clock;
    }

    streetsim_census count() {
        streetsim_census census{};
        check(streetsim_count(&handle_, &census));
        return census;
    }

    // The full periods of a detector, the oldest first.
    std::vector<streetsim_row> read(std::uint64_t meter) {
        streetsim_running running{};
        std::vector<streetsim_row> rows(32);
        std::size_t count = 0;
        check(streetsim_read(&handle_, meter, &running, rows.data(), rows.size(), &count));
        rows.resize(count);
        return rows;
    }

private:
    // The line that is told, with more room where it is wanted: nothing is served twice.
    std::string told(std::uint32_t status, std::size_t bytes) {
        while (status == STREETSIM_SHORT) {
            room_.resize(bytes);
            status = streetsim_reply(&handle_, room_.data(), room_.size(), &bytes);
        }
        check(status);
        return std::string(reinterpret_cast<char *>(room_.data()), bytes);
    }

    void check(std::uint32_t status) {
        if (status == STREETSIM_DONE)
            return;
        if (status == STREETSIM_OTHER) {
            std::size_t bytes = 0;
            std::uint32_t again = streetsim_reply(&handle_, room_.data(), room_.size(), &bytes);
            throw std::runtime_error(told(again, bytes));
        }
        throw std::runtime_error(status == STREETSIM_MISUSED ? "no session is open" : "out of memory");
    }

    streetsim_session handle_{};
    std::vector<unsigned char> room_ = std::vector<unsigned char>(1 << 16);
};

}  // namespace streetsim

int main() {
    streetsim::Session session;
    std::cout << session.line(R"({"cmd":"load","nodes":[[1,1,4],[2,1,4],[3,1,4]],)"
                              R"("links":[[10,1,2,1,40,3],[20,2,3,1,40,3]],"turns":[[10,0,20,0]],)"
                              R"("zone":0,"dawdle":0,"change":0,"seed":0,"start":0})")
              << session.line(R"({"cmd":"meter","link":20,"lane":0,"cell":5,"period":60})");
    for (std::uint64_t second = 0; second < 3; second++)
        session.enter({10, 20}, 4 * second);
    std::uint64_t clock = session.advance(60);
    streetsim_census census = session.count();
    std::cout << "clock " << clock << ": " << census.arrived << " of " << census.admitted << " arrived\n"
              << session.line(R"({"cmd":"read","meter":0})");
    for (const streetsim_row &row : session.read(0))
        std::cout << "from " << row.start << ": " << row.passes << " passed\n";
}
