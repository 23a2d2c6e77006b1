// A class for a session, which can be moved and closes itself: c++ -Iinclude examples/session.cpp lib/librope_search.a
// (bin/ in the repository)
#include "rope_search.h"
#include <cstdio>
#include <stdexcept>
#include <string>
#include <utility>
#include <vector>

class Session {
    rope_search handle_{};

    // A pointer that is never null, also where a text is empty.
    static const uint8_t *bytes(const std::string &text) { return reinterpret_cast<const uint8_t *>(text.c_str()); }

    static void check(uint32_t status)
    {
        if (status != ROPE_SEARCH_DONE)
            throw std::runtime_error("rope_search refuses with " + std::to_string(status));
    }

  public:
    explicit Session(size_t limit = size_t(1) << 30) { check(rope_search_open(limit, &handle_)); }
    Session(Session &&other) noexcept { std::swap(handle_, other.handle_); }
    Session(const Session &) = delete;
    Session &operator=(Session other) noexcept
    {
        std::swap(handle_, other.handle_);
        return *this;
    }
    ~Session() { rope_search_close(&handle_); }

    void set_text(const std::string &text) { check(rope_search_set_text(&handle_, bytes(text), text.size())); }
    void set_pattern(const std::string &pattern)
    {
        check(rope_search_set_pattern(&handle_, bytes(pattern), pattern.size()));
    }
    void edit(rope_search_position from, rope_search_position to, const std::string &text)
    {
        check(rope_search_edit(&handle_, from, to, bytes(text), text.size()));
    }
    void undo() { check(rope_search_undo(&handle_)); }
    rope_search_stretch changed() { return rope_search_changed(&handle_); }

    std::vector<rope_search_span> matches(size_t first = 0, size_t last = SIZE_MAX)
    {
        std::vector<rope_search_span> all(rope_search_count_matches(&handle_, first, last) + 1);
        all.resize(rope_search_copy_matches(&handle_, first, last, all.data(), all.size()));
        return all;
    }
};

int main()
{
    Session one;
    one.set_text("ab ab\nba");
    one.set_pattern("a");
    one.edit({1, 2}, {1, 2}, "!a");
    Session two = std::move(one);
    for (const rope_search_span &match : two.matches())
        std::printf("%zu:%zu-%zu\n", match.line, match.start, match.stop);
    try {
        one.undo();
    } catch (const std::runtime_error &error) {
        std::puts(error.what());
    }
    two.undo();
    std::printf("row %zu: %zu made way for %zu\n", two.changed().first, two.changed().removed, two.changed().added);
    return two.matches().size() == 3 ? 0 : 1;
}
