// Asks the header for C++ what its example does not: a script by text, owners that move, views, buffers that grow, and misuse.
// Writes the answers to the script on standard input.
#include "pathserve.hpp"
#include <algorithm>
#include <cstdio>
#include <iostream>
#include <iterator>
#include <type_traits>

using namespace pathserve;

namespace {

template <typename Owner> constexpr bool only_moves = std::is_nothrow_move_constructible_v<Owner> && std::is_nothrow_move_assignable_v<Owner>
                                                      && !std::is_copy_constructible_v<Owner> && !std::is_copy_assignable_v<Owner>;
static_assert(only_moves<Match> && only_moves<TextMatch> && only_moves<View> && only_moves<Finder>);
static_assert(middle_of(cell_of({navcell + 1, 3 * navcell - 1})) == Point{3 * navcell / 2, 5 * navcell / 2});

void holds(bool is, const char *what) {
    if (!is) throw std::logic_error(what);
}

template <typename Call> void refused(pathserve_status status, Call call, const char *what) {
    try {
        call();
    } catch (const Failed &failed) {
        holds(failed.status() == status, what);
        return;
    }
    throw std::logic_error(what);
}

bool is_same(const Post &a, const Post &b) {
    return a.kind == b.kind && a.id == b.id && a.mask == b.mask && a.x == b.x && a.z == b.z && a.ux == b.ux && a.uz == b.uz && a.hw == b.hw
           && a.hh == b.hh && a.radius == b.radius && a.goal == 0 && b.goal == 0;
}

bool is_same(const std::vector<Cell> &a, const std::vector<Cell> &b) {
    bool same = a.size() == b.size();
    for (std::size_t k = 0; same && k < a.size(); k++) same = a[k].i == b[k].i && a[k].j == b[k].j;
    return same;
}

std::string answers(std::string_view script) {
    TextMatch match;
    holds(match.feed(script.substr(0, 7)) == 7, "a piece that was not consumed");
    TextMatch other(std::move(match));
    refused(PATHSERVE_CLOSED, [&] { match.feed(script); }, "a match that was moved from");
    match = std::move(other);
    match.feed(script.substr(7));
    match.finish();
    refused(PATHSERVE_ENDED, [&] { match.feed(script); }, "a script after its end");
    return match.take();
}

// A map of walls that stand apart, so that paths across it have many waypoints.
Match comb(std::uint16_t width) {
    std::vector<Rect> walls;
    for (std::uint16_t k = 0; k < width / 4; k++) {
        auto i = static_cast<std::uint16_t>(4 * k + 2), j = static_cast<std::uint16_t>(k % 2);
        walls.push_back({i, j, i, static_cast<std::uint16_t>(6 + j), 1, 0});
    }
    return Match({width, 8, 1}, {passability_class("walker", 0), passability_class(std::string(64, 'w'), navcell)}, walls);
}

Post across(std::uint16_t width) { return Goal::point({(width - 1) * navcell + 1, navcell / 2}).path(0, 0, {navcell / 2, navcell / 2}); }

void long_paths() {
    const std::uint16_t width = 800;
    Match match = comb(width);
    Finder finder;
    Replies replies, many;
    match.post({across(width), across(width)});
    pathserve_turn turn = match.end_turn(replies);
    holds(turn.replies == 2 && replies.replies[1].waypoints > 200, "a path of few waypoints");
    std::vector<Cell> waypoints = replies.of(replies.replies[1]);
    View view = match.view(), other = view.again();
    Found found = view.find(across(width)), again = finder.find(other, across(width));
    holds(is_same(found.waypoints, waypoints) && is_same(again.waypoints, waypoints) && again.reply.cost == found.reply.cost, "another path");
    finder.find_all(other, {across(width), across(width), region(0, 0, {2 * navcell, 0})}, many);
    holds(many.replies[1].post == 1 && many.replies[2].kind == PATHSERVE_IN_REGION, "other replies");
    holds(many.waypoints.size() == 2 * waypoints.size() && is_same(many.of(many.replies[1]), waypoints), "other waypoints");
    Cell start = found.reply.start;
    holds(view.smooth(0, start, again.waypoints) && again.waypoints.size() < waypoints.size(), "a walk that was not smoothed");
    holds(!view.smooth(0, {2, 0}, waypoints) && is_same(waypoints, found.waypoints), "a walk out of a wall");
    holds(view.region(0, {0, 0}) > 0 && view.area(0, {0, 0}) == view.area(0, {799, 0}) && !view.passable(0, {2, 0}), "other cells");
    holds(view.row(0, 0, width).size() == 13 && (view.row(0, 0, width)[0] & 0xff) == 0xfb && view.row(0, 8, width).empty(), "another row");
    holds(view.clear(0, {0, 0}, {1, 7}) && !view.clear(0, {0, 0}, {3, 0}), "another line");
    holds(!answers(match.journal()).empty(), "a journal without answers");
}

void fields() {
    Match match = comb(8);
    Replies replies;
    match.end_turn(replies);
    View view = match.view();
    Field field(8, 8);
    holds(view.make(field, across(8)) && field.reply().kind == PATHSERVE_AT_GOAL, "no field");
    Cell at = field.reply().start;
    int steps = 0;
    for (auto next = field.next(at); next; next = field.next(at), steps++) at = *next;
    holds(steps > 7 && at.i == 7 && field.step(at) == PATHSERVE_STEP_STAYS, "a field that leads elsewhere");
    holds(!view.make(field, across(9)) && field.reply().why == PATHSERVE_GOAL_OUTSIDE && field.step(at) == PATHSERVE_NO_STEP, "a field to nowhere");
}

void edits() {
    Match match = comb(8);
    Replies replies;
    Post unit = add_unit(0, 7, 1, {4 * navcell, 4 * navcell}, navcell);
    Post wall = add_rectangle(0, 8, 1, {{navcell, navcell}, {0, navcell}, 9, 5});
    holds(!match.check({unit, wall}), "a fault where there is none");
    auto fault = match.check({unit, remove(1, 1)});
    holds(fault && fault->which == 1 && fault->why == PATHSERVE_WRONG_CALLER, "another fault");
    match.post(unit);
    match.post({wall, move_to(0, 9, {0, 0})});
    match.end_turn(replies);
    holds(replies.replies[0].kind == PATHSERVE_ADDED && replies.replies[2].why == PATHSERVE_UNKNOWN_ID, "other replies to edits");
    View view = match.view();
    auto standing = view.standing();
    holds(standing.size() == 2 && is_same(standing[0], unit) && is_same(standing[1], wall), "another list of obstructions");
    holds(is_same(*view.standing_at(8), wall) && !view.standing_at(9), "another obstruction");
    holds(view.size().i == 8 && view.size().j == 8, "another size");
    holds(view.nearest(0, {navcell / 2, 3 * navcell / 2})->j == 1 && !view.nearest(0, {-1, 0}), "another cell");
    Cell end = {9, 9};
    holds(view.reachable(across(8), end) == PATHSERVE_AT_GOAL && view.reachable(unit, end) == 0 && end.i == 9, "another end of a path");
    match.post({move_to(0, 7, {5 * navcell, 4 * navcell}), remove(0, 8)});
    match.end_turn(replies);
    holds(match.view().standing().size() == 1 && view.standing().size() == 2, "a view that does not stay");
}

void texts() {
    holds(status_text(PATHSERVE_CLOSED) == "the handle is closed", "another text of a status");
    holds(refusal_text(PATHSERVE_UNKNOWN_ID) == "unknown-id", "another text of a refusal");
    holds(fault_text(PATHSERVE_WRONG_CLASS) == "the map has no such class", "another text of a fault");
    holds(version_text().size() > 4 && Failed(PATHSERVE_SMALL).what() == "pathserve: " + status_text(PATHSERVE_SMALL), "another text");
}

void grids() {
    const Map map = {3, 2, 1};
    Match match = Match::on_grid(map, {passability_class("walker", 0)}, {1, 0, 1, 2, 3, 0});
    View view = match.view();
    holds(!view.passable(0, {0, 0}) && view.passable(0, {1, 0}) && view.passable(0, {0, 1}) && !view.passable(0, {1, 1}), "other cells");
    refused(PATHSERVE_BAD_VALUE, [&] { Match::on_grid(map, {passability_class("walker", 0)}, {1, 0, 1, 2, 3}); }, "too few masks");
    match.limit_posts(2);
    match.post(region(0, 0, {0, 0}));
    refused(PATHSERVE_PAST_LIMIT, [&] { match.post({region(0, 0, {0, 0}), region(0, 0, {0, 0})}); }, "posts past the limit");
    match.post(region(0, 0, {0, 0}));
}

void saves() {
    Match match = comb(8);
    Replies replies;
    holds(match.digest() == 0, "a digest of no turn");
    match.post({add_unit(0, 7, 1, {4 * navcell, 4 * navcell}, navcell), across(8)});
    match.end_turn(replies);
    match.post(move_to(0, 7, {5 * navcell, 4 * navcell}));
    match.end_turn(replies);
    View view = match.view();
    std::string saved = view.snapshot();
    Match late = Match::of_script(saved), again = Match::of_script(match.journal());
    holds(late.view().digest() == view.digest() && again.view().snapshot() == saved, "something else stands");
    holds(again.digest() == match.digest() && match.digest() != 0, "another last turn");
    match.forget();
    holds(match.journal() == saved && late.journal() == saved, "a journal that is not begun anew");
    for (Match *its : {&match, &late, &again}) {
        its->post(across(8));
        holds(its->end_turn(replies).turn == (its == &again ? 3u : 2u), "another turn");
    }
    holds(late.digest() == match.digest() && again.digest() == match.digest(), "players out of step");
    std::uint64_t line = 0;
    std::string cause;
    try {
        Match::of_script(saved.substr(0, saved.size() - 1) + "{}");
    } catch (const BadScript &bad) {
        line = bad.line();
        cause = bad.cause();
    }
    holds(!cause.empty() && cause_of(saved).line == 0 && cause_of(saved).cause.empty(), "another cause");
    holds(line == static_cast<std::uint64_t>(std::count(saved.begin(), saved.end(), '\n')), "another bad line");
}

void misuse() {
    TextMatch lines;
    lines.limit_line(1);
    refused(PATHSERVE_PAST_LIMIT, [&] { lines.feed("{}\n"); }, "a line past its limit");
    Match match = comb(8);
    Finder finder;
    Replies replies;
    refused(PATHSERVE_BAD_VALUE, [&] { match.post(remove(1, 1)); }, "another caller");
    refused(PATHSERVE_BAD_VALUE, [&] { match.post(region(0, 2, {0, 0})); }, "another class");
    refused(PATHSERVE_BAD_VALUE, [] { Match({0, 0, 0}, {}); }, "no map");
    refused(PATHSERVE_BAD_VALUE, [] { passability_class(std::string(65, 'w'), 0); }, "a long name");
    refused(PATHSERVE_NO_MAP, [] { TextMatch().view(); }, "a view of no map");
    refused(PATHSERVE_BAD_LINE, [] { TextMatch(PATHSERVE_SMOOTH).feed("\n"); }, "an empty line");
    TextMatch bad;
    holds(bad.cause().empty(), "a cause of no bad line");
    refused(PATHSERVE_BAD_LINE, [&] { bad.feed("\n"); }, "an empty line");
    holds(bad.cause() == "the line must be one JSON value, and is blank", "another cause");
    View view = match.view();
    for (const Goal &goal : {Goal::circle({navcell, navcell}, navcell), Goal::circle({0, 0}, navcell, true), Goal::obstruction(1, navcell),
                             Goal::rectangle({{navcell, navcell}, {navcell, 0}, navcell, navcell}, true)})
        match.post(goal.path(0, 0, {navcell / 2, navcell / 2}));
    match.end_turn(replies);
    holds(is_path(replies.replies[0]) && is_path(replies.replies[1]) && replies.replies[2].why == PATHSERVE_UNKNOWN_ID, "other goals");
    match = comb(12);
    holds(is_path(view.find(across(8)).reply), "a view after its match");
    View later = std::move(view);
    refused(PATHSERVE_CLOSED, [&] { finder.find(view, across(8)); }, "a view that was moved from");
    holds(is_path(finder.find(later, across(8)).reply), "a view that was moved");
}

} // namespace

int main() {
    long_paths();
    fields();
    edits();
    texts();
    grids();
    saves();
    misuse();
    std::string script{std::istreambuf_iterator<char>(std::cin), {}};
    std::cout << answers(script);
}
