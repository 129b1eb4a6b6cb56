// Opens a queue. Where the library is of the header's version that is well; where it isn't it is
// answered BadVersion, and the port stays closed. Prints which it was.
#include "scq.hpp"

#include "check.h"

#include <cstdio>
#include <vector>

int main() {
    const bool same = scq_version() == SCQ_VERSION;
    const scq::Answer wanted = same ? scq::Answer::Ok : scq::Answer::BadVersion;
    scq::Port port[1];
    std::vector<scq::Port> ports(3);
    scq::Setup wrong;
    wrong.order = 0;
    CHECK(scq::Queue::open(scq::Setup(), port) == wanted && static_cast<bool>(port[0]) == same);
    CHECK(scq::Queue::open(scq::Setup(), ports) == wanted && static_cast<bool>(ports[2]) == same);
    CHECK(scq::Queue::open(wrong, port) == (same ? scq::Answer::BadOrder : wanted));
    CHECK(port[0].lend().answer() == (same ? scq::Answer::Ok : scq::Answer::Closed));
    return std::puts(same ? "opened" : "refused") < 0;
}
