// A first path: a building stands in its way. In a release:
//     c++ -std=c++17 -Iinclude -Iexamples/cpp examples/cpp/first.cpp lib/libpathserve.a -o first && ./first
#include "pathserve.hpp"
#include <cstdio>

int main() {
    using namespace pathserve;
    Match match({64, 64, 1}, {passability_class("infantry", navcell * 3 / 4)}); // 64 by 64 navcells, one caller
    match.post(add_unit(0, 1, 1, middle_of({32, 32}), 4 * navcell));
    match.post(Goal::point(middle_of({50, 32})).path(0, 0, middle_of({10, 32})));
    Replies replies;
    match.end_turn(replies); // edits are made, then requests answered
    for (Cell it : replies.of(replies.replies[1])) std::printf("column %d, row %d\n", it.i, it.j);
}
