// pathserve.hpp: libpathserve for C++17 and later, in one header over pathserve.h. Copy it into your game.
//
// Match, TextMatch, View and Finder own their handles: they can be moved and not copied, and close themselves. As a handle,
// an object serves one thread at a time; give each thread a View and a Finder of its own. A call that fails throws Failed and
// leaves its object as it was; where pathserve.h says otherwise, so does the comment here. What a call means, pathserve.h says.
#ifndef PATHSERVE_HPP
#define PATHSERVE_HPP

#include <cstddef>
#include <cstdint>
#include <optional>
#include <pathserve.h>
#include <stdexcept>
#include <string>
#include <string_view>
#include <utility>
#include <vector>

namespace pathserve {

using Cell = pathserve_cell;
using Map = pathserve_map;
using PassabilityClass = pathserve_class;
using Rect = pathserve_rect;
using Post = pathserve_post;
using Reply = pathserve_reply;

using Fixed = pathserve_fixed; // a coordinate or a length: navcell is the side of a navcell
constexpr Fixed navcell = PATHSERVE_NAVCELL;

struct Point {
    Fixed x, z;
};

constexpr bool operator==(Point one, Point other) { return one.x == other.x && one.z == other.z; }

constexpr Cell cell_of(Point at) { return {static_cast<std::uint16_t>(at.x / navcell), static_cast<std::uint16_t>(at.z / navcell)}; }

constexpr Point middle_of(Cell of) { return {of.i * navcell + navcell / 2, of.j * navcell + navcell / 2}; }

// A rectangle along a unit vector, 65,536 times the cosine and the sine of its angle: half its length along the vector, half its
// width across it. Floats may differ between machines: send the vector with the order, or compute it in whole numbers.
struct Rectangle {
    Point middle, along;
    Fixed half_length, half_width;
};

// ---- texts

namespace detail {

// What a call of the library writes to a buffer.
template <typename Call> std::string text_by(Call call) {
    std::string text(PATHSERVE_TEXT, '\0');
    text.resize(call(reinterpret_cast<std::uint8_t *>(text.data()), text.size()));
    return text;
}

} // namespace detail

// What a status means, a reply's `why`, and what is wrong with a post that a match would refuse.
inline std::string status_text(pathserve_status status) {
    return detail::text_by([=](std::uint8_t *to, std::size_t length) { return pathserve_status_text(status, to, length); });
}
inline std::string refusal_text(std::uint32_t why) {
    return detail::text_by([=](std::uint8_t *to, std::size_t length) { return pathserve_refusal_text(why, to, length); });
}
inline std::string fault_text(std::uint32_t why) {
    return detail::text_by([=](std::uint8_t *to, std::size_t length) { return pathserve_fault_text(why, to, length); });
}

// The version of the library that was linked.
inline std::string version_text() { return detail::text_by(pathserve_version_text); }

// ---- what fails

class Failed : public std::runtime_error {
  public:
    explicit Failed(pathserve_status status) : std::runtime_error("pathserve: " + status_text(status)), its_status(status) {}

    // One of the PATHSERVE_ statuses.
    pathserve_status status() const noexcept { return its_status; }

  private:
    pathserve_status its_status;
};

// A script that opens no match. A line of BAD_LINE or TOO_LONG is told by its number, from 1, and of BAD_LINE why it is bad.
class BadScript : public Failed {
  public:
    BadScript(pathserve_status status, std::uint64_t line, std::string cause)
        : Failed(status), its_line(line), its_cause(std::move(cause)) {}

    std::uint64_t line() const noexcept { return its_line; }
    const std::string &cause() const noexcept { return its_cause; }

  private:
    std::uint64_t its_line;
    std::string its_cause;
};

inline void must(pathserve_status status) {
    if (status != PATHSERVE_DONE) throw Failed(status);
}

// ---- owners

namespace detail {

template <typename Raw, void (*close)(Raw *)> class Owner {
  public:
    Owner() {
        if (pathserve_version() >> 8 != PATHSERVE_VERSION >> 8 || pathserve_answers() != PATHSERVE_ANSWERS)
            throw std::logic_error("libpathserve and pathserve.h are of different versions");
    }
    Owner(Owner &&other) noexcept : raw(std::exchange(other.raw, closed)) {}
    Owner &operator=(Owner &&other) noexcept {
        Owner taken(std::move(other));
        std::swap(raw, taken.raw);
        return *this;
    }
    ~Owner() { close(&raw); }

    // The handle, for a call of pathserve.h. It is closed once the owner was moved from.
    Raw *get() noexcept { return &raw; }

  private:
    static constexpr Raw closed = PATHSERVE_CLOSED_HANDLE;
    Raw raw = closed;
};

// What a call writes into a buffer, which tells the size that it needs.
template <typename Handle> std::string written(pathserve_status (*write)(Handle *, std::uint8_t *, std::size_t, std::size_t *), Handle *from) {
    std::string text;
    std::size_t whole = 0;
    pathserve_status status;
    while ((status = write(from, reinterpret_cast<std::uint8_t *>(text.data()), text.size(), &whole)) == PATHSERVE_SMALL) text.resize(whole);
    must(status);
    return text;
}

} // namespace detail

// ---- posts

inline PassabilityClass passability_class(std::string_view name, Fixed clearance) {
    PassabilityClass made = {};
    if (name.size() > sizeof made.name) throw Failed(PATHSERVE_BAD_VALUE);
    name.copy(reinterpret_cast<char *>(made.name), name.size());
    made.name_length = static_cast<std::uint32_t>(name.size());
    made.clearance = clearance;
    return made;
}

// An obstruction that is a square along the axes, for the classes of the mask: bit k is for class k.
inline Post add_unit(std::uint8_t caller, std::uint32_t id, std::uint16_t mask, Point middle, Fixed half_side) {
    Post post = {};
    post.kind = PATHSERVE_ADD_UNIT;
    post.caller = caller;
    post.id = id;
    post.mask = mask;
    post.x = middle.x;
    post.z = middle.z;
    post.radius = half_side;
    return post;
}

inline Post add_rectangle(std::uint8_t caller, std::uint32_t id, std::uint16_t mask, const Rectangle &shape) {
    Post post = add_unit(caller, id, mask, shape.middle, 0);
    post.kind = PATHSERVE_ADD_SQUARE;
    post.ux = shape.along.x;
    post.uz = shape.along.z;
    post.hw = shape.half_length;
    post.hh = shape.half_width;
    return post;
}

inline Post remove(std::uint8_t caller, std::uint32_t id) {
    Post post = {};
    post.kind = PATHSERVE_REMOVE;
    post.caller = caller;
    post.id = id;
    return post;
}

inline Post move_to(std::uint8_t caller, std::uint32_t id, Point middle) {
    Post post = remove(caller, id);
    post.kind = PATHSERVE_MOVE;
    post.x = middle.x;
    post.z = middle.z;
    return post;
}

// Asks for the region and the area of a class at a point.
inline Post region(std::uint8_t caller, std::uint8_t class_number, Point at) {
    Post post = {};
    post.kind = PATHSERVE_REGION;
    post.caller = caller;
    post.class_number = class_number;
    post.x = at.x;
    post.z = at.z;
    return post;
}

// Where a path may end: in a cell of a shape, or with `outside` in one outside it.
class Goal {
  public:
    static Goal point(Point at) { return Goal(PATHSERVE_POINT, at); }
    static Goal circle(Point middle, Fixed radius, bool outside = false) {
        Goal made(outside ? PATHSERVE_NOT_CIRCLE : PATHSERVE_CIRCLE, middle);
        made.fields.radius = radius;
        return made;
    }
    static Goal rectangle(const Rectangle &shape, bool outside = false) {
        Goal made(outside ? PATHSERVE_NOT_SQUARE : PATHSERVE_SQUARE, shape.middle);
        made.fields.ux = shape.along.x;
        made.fields.uz = shape.along.z;
        made.fields.hw = shape.half_length;
        made.fields.hh = shape.half_width;
        return made;
    }
    // In the cells around an obstruction.
    static Goal obstruction(std::uint32_t id, Fixed distance) {
        Goal made(PATHSERVE_OBSTRUCTION, {0, 0});
        made.fields.id = id;
        made.fields.radius = distance;
        return made;
    }

    // Asks for a path of a class from a point to this goal.
    Post path(std::uint8_t caller, std::uint8_t class_number, Point from) const {
        Post post = fields;
        post.caller = caller;
        post.class_number = class_number;
        post.x = from.x;
        post.z = from.z;
        return post;
    }

  private:
    Goal(int kind, Point middle) {
        fields.kind = PATHSERVE_PATH;
        fields.goal = static_cast<std::uint8_t>(kind);
        fields.goal_x = middle.x;
        fields.goal_z = middle.z;
    }

    Post fields = {};
};

inline bool is_path(const Reply &reply) { return reply.kind == PATHSERVE_AT_GOAL || reply.kind == PATHSERVE_NEAR_GOAL; }

// The first post that a match would refuse: its place, and a PATHSERVE_ number that says what is wrong with it.
struct Fault {
    std::size_t which;
    std::uint32_t why;
};

// Posts of which one is none of the match.
class BadPost : public Failed {
  public:
    explicit BadPost(Fault fault) : Failed(PATHSERVE_BAD_VALUE), its_fault(fault) {}
    const Fault &fault() const noexcept { return its_fault; }

  private:
    Fault its_fault;
};

// Replies, and the waypoints of all their paths. Keep one and have it written again: then its memory is used again.
struct Replies {
    std::vector<Reply> replies;
    std::vector<Cell> waypoints;

    std::vector<Cell> of(const Reply &reply) const {
        auto first = waypoints.begin() + static_cast<std::ptrdiff_t>(reply.first_waypoint);
        return {first, first + static_cast<std::ptrdiff_t>(reply.waypoints)};
    }
};

// A reply, and its waypoints if it is a path.
struct Found {
    Reply reply;
    std::vector<Cell> waypoints;
};

// ---- flow fields

// A flow field of a map: of each cell the step to take there. It needs no view; any number of threads may read it.
class Field {
  public:
    // With `has_distances` it has the distance of each cell too, in 8 bytes more.
    Field(std::uint32_t width, std::uint32_t height, bool has_distances = false)
        : columns(width), steps(std::size_t{width} * height, PATHSERVE_NO_STEP),
          distances(has_distances ? steps.size() : 0, PATHSERVE_NO_DISTANCE) {}

    // What the path that asks for this field is answered, without its waypoints. If it is no path no cell has a step.
    const Reply &reply() const { return its_reply; }

    std::uint8_t step(Cell at) const { return steps[std::size_t{at.j} * columns + at.i]; }

    // What the cheapest walk from this cell costs, in a field that has distances. PATHSERVE_NO_DISTANCE where there is none.
    std::uint64_t distance(Cell at) const { return distances[std::size_t{at.j} * columns + at.i]; }

    // The cell that a unit goes to from this one. None on the goal, and where no step leads there.
    std::optional<Cell> next(Cell from) const {
        static constexpr int east[] = {0, 0, 1, 0, -1, 1, 1, -1, -1}, north[] = {0, 1, 0, -1, 0, 1, -1, -1, 1};
        std::uint8_t number = step(from);
        if (number == PATHSERVE_NO_STEP || number == PATHSERVE_STEP_STAYS) return std::nullopt;
        return Cell{static_cast<std::uint16_t>(from.i + east[number]), static_cast<std::uint16_t>(from.j + north[number])};
    }

  private:
    friend class View;
    std::uint32_t columns;
    std::vector<std::uint8_t> steps;
    std::vector<std::uint64_t> distances;
    Reply its_reply = {};
};

// ---- views and finders

// A snapshot of the map after the turns that have ended.
class View {
  public:
    // Another of the same snapshot, for another thread.
    View again() {
        View made;
        must(pathserve_view_again(get(), made.get()));
        return made;
    }

    bool passable(std::uint32_t class_number, Cell at) { return pathserve_passable(get(), class_number, at.i, at.j) != 0; }
    std::uint32_t region(std::uint32_t class_number, Cell at) { return pathserve_region(get(), class_number, at.i, at.j); }
    std::uint32_t area(std::uint32_t class_number, Cell at) { return pathserve_area(get(), class_number, at.i, at.j); }
    bool clear(std::uint32_t class_number, Cell from, Cell to) { return pathserve_clear(get(), class_number, &from, &to) != 0; }

    // How many columns and rows the map has, as i and j.
    Cell size() {
        Cell its = {};
        pathserve_view_size(get(), &its);
        return its;
    }

    // Which cells of row j are passable, a bit each, on a map of this width. Empty for a row off the map.
    std::vector<std::uint64_t> row(std::uint32_t class_number, std::uint32_t j, std::uint32_t width) {
        std::vector<std::uint64_t> words((width + 63) / 64);
        words.resize(pathserve_row(get(), class_number, j, words.data(), words.size()));
        return words;
    }

    // The cell in which a path from this point starts.
    std::optional<Cell> nearest(std::uint32_t class_number, Point at) {
        Cell cell = {};
        if (pathserve_nearest(get(), class_number, at.x, at.z, &cell) == 0) return std::nullopt;
        return cell;
    }

    // How a path would end, without a search: the kind of the reply that `find` gives, PATHSERVE_AT_GOAL among others, and with
    // PATHSERVE_NEAR_GOAL the cell in which it ends. 0 if the post asks for no path.
    std::uint32_t reachable(const Post &post, Cell &end) { return pathserve_reachable(get(), &post, &end); }

    // An obstruction, and all of them, as the posts that add them.
    std::optional<Post> standing_at(std::uint32_t id) {
        Post post = {};
        if (pathserve_standing_at(get(), id, &post) == 0) return std::nullopt;
        return post;
    }
    std::vector<Post> standing() {
        std::uint64_t whole = 0;
        must(pathserve_standing(get(), 0, nullptr, 0, &whole));
        std::vector<Post> posts(static_cast<std::size_t>(whole));
        must(pathserve_standing(get(), 0, posts.data(), posts.size(), &whole));
        return posts;
    }

    // The map and all obstructions as a script of one turn, of which a match opens and goes on alike.
    std::string snapshot() { return detail::written(pathserve_snapshot, get()); }

    // The digest of the snapshot: where two players have the same, the same obstructions stand.
    std::uint64_t digest() {
        std::uint64_t digest = 0;
        must(pathserve_view_digest(get(), &digest));
        return digest;
    }

    // Answers a path or a region at once. A Finder does so in less time.
    Found find(const Post &post) {
        Found found = {{}, std::vector<Cell>(64)};
        must(pathserve_find(get(), &post, &found.reply, found.waypoints.data(), found.waypoints.size()));
        bool fits = found.reply.waypoints <= found.waypoints.size();
        found.waypoints.resize(static_cast<std::size_t>(found.reply.waypoints));
        if (!fits) must(pathserve_find(get(), &post, &found.reply, found.waypoints.data(), found.waypoints.size()));
        return found;
    }

    // Makes the field to the goal of a path anew, and says whether there is one. The field is of this map's size.
    bool make(Field &field, const Post &post) {
        must(pathserve_field(get(), &post, &field.its_reply, field.steps.data(), field.steps.size(), field.distances.data(),
                             field.distances.size()));
        if (is_path(field.its_reply)) return true;
        field.steps.assign(field.steps.size(), PATHSERVE_NO_STEP);
        field.distances.assign(field.distances.size(), PATHSERVE_NO_DISTANCE);
        return false;
    }

    // Leaves of the waypoints of a walk the fewest that clear lines join. False, and they stay, if they are no legal walk here.
    bool smooth(std::uint32_t class_number, Cell start, std::vector<Cell> &waypoints) {
        std::size_t kept = 0;
        pathserve_status status = pathserve_smooth(get(), class_number, &start, waypoints.data(), waypoints.size(), &kept);
        if (status == PATHSERVE_BAD_VALUE) return false;
        must(status);
        waypoints.resize(kept);
        return true;
    }

    pathserve_view *get() noexcept { return owner.get(); }

  private:
    friend class Match;
    friend class TextMatch;
    View() = default;
    static View of(pathserve_match *match) {
        View made;
        must(pathserve_view_of(match, made.get()));
        return made;
    }

    detail::Owner<pathserve_view, pathserve_view_close> owner;
};

// The memory of a thread's searches, kept from call to call. It serves views of any match.
class Finder {
  public:
    Finder() { must(pathserve_finder_open(get())); }

    // What View::find answers.
    Found find(View &view, const Post &post) {
        Found found = {{}, std::vector<Cell>(64)};
        must(pathserve_find_with(get(), view.get(), &post, &found.reply, found.waypoints.data(), found.waypoints.size()));
        bool fits = found.reply.waypoints <= found.waypoints.size();
        found.waypoints.resize(static_cast<std::size_t>(found.reply.waypoints));
        if (!fits) must(pathserve_find_with(get(), view.get(), &post, &found.reply, found.waypoints.data(), found.waypoints.size()));
        return found;
    }

    // What View::find answers, if that is no path that costs more than `most`; else a reply of the kind PATHSERVE_TOO_FAR.
    Found find_within(View &view, const Post &post, std::uint64_t most) {
        Found found = {{}, std::vector<Cell>(64)};
        near(view, post, most, found);
        bool fits = found.reply.waypoints <= found.waypoints.size();
        found.waypoints.resize(static_cast<std::size_t>(found.reply.waypoints));
        if (!fits) near(view, post, most, found);
        return found;
    }

    // What it answers to each of the posts, in their order.
    void find_all(View &view, const std::vector<Post> &posts, Replies &into) {
        into.replies.resize(posts.size());
        if (into.waypoints.size() < 16 * posts.size()) into.waypoints.resize(16 * posts.size());
        std::size_t count = found(view, posts, into);
        bool fits = count <= into.waypoints.size();
        into.waypoints.resize(count);
        if (!fits) found(view, posts, into);
    }

    pathserve_finder *get() noexcept { return owner.get(); }

  private:
    // Fills the buffer as it is.
    void near(View &view, const Post &post, std::uint64_t most, Found &found) {
        must(pathserve_find_within(get(), view.get(), &post, most, &found.reply, found.waypoints.data(), found.waypoints.size()));
    }

    // Fills the buffers as they are, and gives how many waypoints there are in all.
    std::size_t found(View &view, const std::vector<Post> &posts, Replies &into) {
        must(pathserve_find_all(get(), view.get(), posts.data(), posts.size(), into.replies.data(), into.replies.size(),
                                into.waypoints.data(), into.waypoints.size()));
        std::uint64_t count = 0;
        for (const Reply &reply : into.replies)
            if (is_path(reply)) count = reply.first_waypoint + reply.waypoints;
        return static_cast<std::size_t>(count);
    }

    detail::Owner<pathserve_finder, pathserve_finder_close> owner;
};

// ---- matches

// The line at which a script is bad, from 1, and why, as the program says it. 0 and no cause where none is.
struct BadLine {
    std::uint64_t line = 0;
    std::string cause;
};
inline BadLine cause_of(std::string_view script) {
    BadLine bad;
    std::size_t whole = 0;
    auto bytes = reinterpret_cast<const std::uint8_t *>(script.data());
    auto told = [&] {
        auto text = reinterpret_cast<std::uint8_t *>(bad.cause.data());
        return pathserve_script_cause(bytes, script.size(), &bad.line, text, bad.cause.size(), &whole);
    };
    pathserve_status status;
    while ((status = told()) == PATHSERVE_SMALL) bad.cause.resize(whole);
    must(status);
    return bad;
}

// A match by posts.
class Match {
  public:
    Match(const Map &map, const std::vector<PassabilityClass> &classes, const std::vector<Rect> &base = {}) {
        must(pathserve_open_map(get(), &map, classes.data(), classes.size(), base.data(), base.size()));
    }

    // The same with the terrain as a grid of masks, that of cell (i, j) at place j * width + i.
    static Match on_grid(const Map &map, const std::vector<PassabilityClass> &classes, const std::vector<std::uint16_t> &masks) {
        Match made;
        must(pathserve_open_grid(made.get(), &map, classes.data(), classes.size(), masks.data(), masks.size()));
        return made;
    }

    // Lets at most so many posts wait for the end of a turn.
    void limit_posts(std::size_t most) { must(pathserve_limit_posts(get(), most)); }

    // A match in which a whole script of version 3 was played, such as a journal or a snapshot. BadScript if it is none.
    static Match of_script(std::string_view script) {
        Match made;
        std::uint64_t line = 0;
        auto bytes = reinterpret_cast<const std::uint8_t *>(script.data());
        pathserve_status status = pathserve_open_script(made.get(), bytes, script.size(), &line);
        if (status == PATHSERVE_BAD_LINE || status == PATHSERVE_TOO_LONG) throw BadScript(status, line, cause_of(script).cause);
        must(status);
        return made;
    }

    // Adds posts to the turn: all or none. BadPost says which of them is none of the match, and why.
    void post(const Post &post) { this->post(std::vector<Post>{post}); }
    void post(const std::vector<Post> &posts) {
        pathserve_status status = pathserve_post_all(get(), posts.data(), posts.size());
        if (status == PATHSERVE_BAD_VALUE)
            if (auto fault = check(posts)) throw BadPost(*fault);
        must(status);
    }

    // The first of these posts that `post` would refuse.
    std::optional<Fault> check(const std::vector<Post> &posts) {
        Fault fault = {};
        pathserve_status status = pathserve_check(get(), posts.data(), posts.size(), &fault.which, &fault.why);
        if (status == PATHSERVE_BAD_VALUE) return fault;
        must(status);
        return std::nullopt;
    }

    // Ends the turn: its numbers, and its replies.
    pathserve_turn end_turn(Replies &into) {
        pathserve_turn turn;
        must(pathserve_end_turn(get(), &turn));
        into.replies.resize(static_cast<std::size_t>(turn.replies));
        into.waypoints.resize(static_cast<std::size_t>(turn.waypoints));
        pathserve_replies(get(), 0, into.replies.data(), into.replies.size());
        pathserve_waypoints(get(), 0, into.waypoints.data(), into.waypoints.size());
        return turn;
    }

    // The turns that have ended as a script.
    std::string journal() { return detail::written(pathserve_journal, get()); }

    // Lets go of the journal, and keeps none from then on. `forget` begins one again.
    void keep_no_journal() { must(pathserve_keep_no_journal(get())); }

    // Begins the journal anew, with one turn that adds what stands: the next turn is the second.
    void forget() { must(pathserve_forget(get())); }

    // The digest of the turn that ended last; 0 if none has ended.
    std::uint64_t digest() {
        std::uint64_t digest = 0;
        must(pathserve_turn_digest(get(), &digest));
        return digest;
    }

    View view() { return View::of(get()); }

    pathserve_match *get() noexcept { return owner.get(); }

  private:
    Match() = default;

    detail::Owner<pathserve_match, pathserve_close> owner;
};

// A match by the text of its script.
class TextMatch {
  public:
    explicit TextMatch(std::uint32_t report = PATHSERVE_REPLAY) { must(pathserve_open(get(), report)); }

    // Feeds the next bytes. Gives how many were consumed: fewer only if an allocation failed, then feed the others again.
    // Failed with BAD_LINE or TOO_LONG: the match has stopped, and its text can still be taken.
    std::size_t feed(std::string_view script) {
        std::size_t taken = 0;
        pathserve_status status = pathserve_feed(get(), reinterpret_cast<const std::uint8_t *>(script.data()), script.size(), &taken);
        if (status != PATHSERVE_NO_MEMORY) must(status);
        return taken;
    }

    // Lets a line have at most so many bytes: `feed` refuses those with which one would have more, and takes nothing.
    void limit_line(std::size_t most) { must(pathserve_limit_line(get(), most)); }

    // Ends the script. Failed with NO_MEMORY: it has ended, and some text is missing; call again.
    void finish() { must(pathserve_finish(get())); }

    // Why the line is bad at which the match has stopped, as the program says it. Empty as long as no line was bad.
    std::string cause() { return detail::written(pathserve_cause, get()); }

    // The text that waits, all of it.
    std::string take() {
        std::string text(pathserve_waiting(get()), '\0');
        text.resize(pathserve_take(get(), reinterpret_cast<std::uint8_t *>(text.data()), text.size()));
        return text;
    }

    View view() { return View::of(get()); }

    pathserve_match *get() noexcept { return owner.get(); }

  private:
    detail::Owner<pathserve_match, pathserve_close> owner;
};

} // namespace pathserve

#endif
