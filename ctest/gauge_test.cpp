// The board as C++ firmware calls it: the header gives the five calls their C names, and a saved block may be constant. Prints what
// fails; the exit status is 0 if nothing does.
#include "gauge.h"

#include <array>
#include <cstdio>
#include <type_traits>

namespace {

static_assert(GAUGE_VERSION_MAJOR == 2 && GAUGE_VERSION_MINOR == 0, "the header's version");
static_assert(GAUGE_FORM_EIGHT == 0 && GAUGE_FORM_MAILBOX == 1 && GAUGE_MAILBOX_SIZE == 128, "the forms of line 0");
static_assert(GAUGE_BAD_MAILBOX == 6 && GAUGE_NOT_SDO == 7, "the numbers of a mailbox");
static_assert(std::is_same<decltype(&gauge_power_up), uint32_t (*)(uint32_t, uint8_t *, size_t, const uint8_t *, size_t,
                                                                        uint8_t *, size_t)>::value,
              "power-up's block is lent for reading");
static_assert(std::is_same<decltype(&gauge_mailbox), uint32_t (*)(const uint8_t *, size_t, uint8_t *, size_t, uint8_t *, size_t,
                                                                       uint8_t *, size_t, uint8_t *, size_t)>::value,
              "a mailbox is lent for reading");

using Message = std::array<uint8_t, GAUGE_MESSAGE_SIZE>;
using Mailbox = std::array<uint8_t, GAUGE_MAILBOX_SIZE>;
using Image = std::array<uint8_t, GAUGE_IMAGE_SIZE>;

unsigned checks, failures;

void check(bool good, const char *what)
{
    checks++;
    if (!good) {
        failures++;
        std::printf("gauge_test.cpp: %s\n", what);
    }
}

// a board and what it is lent
class Board {
  public:
    explicit Board(const std::array<uint8_t, GAUGE_BLOCK_SIZE> &kept, uint32_t form = GAUGE_FORM_EIGHT) : block(kept)
    {
        check(gauge_power_up(form, values.data(), values.size(), kept.data(), kept.size(), state.data(), state.size()) == GAUGE_DONE, "power-up");
    }

    Message say(uint32_t line, const Message &message)
    {
        Message answer{};
        check(gauge_message(line, message.data(), message.size(), values.data(), values.size(), block.data(), block.size(), state.data(),
                            state.size(), answer.data(), answer.size()) == GAUGE_DONE,
              "a message");
        return answer;
    }

    Mailbox post(const Mailbox &mailbox)
    {
        Mailbox answer{};
        check(gauge_mailbox(mailbox.data(), mailbox.size(), values.data(), values.size(), block.data(), block.size(), state.data(),
                            state.size(), answer.data(), answer.size()) == GAUGE_DONE,
              "a mailbox");
        return answer;
    }

    void sample(float pressure)
    {
        check(gauge_sample(pressure, 1, 0, 1, values.data(), values.size(), state.data(), state.size()) == GAUGE_DONE, "a sample");
    }

    Image image() const
    {
        Image image{};
        check(gauge_image(values.data(), values.size(), image.data(), image.size()) == GAUGE_DONE, "an image");
        return image;
    }

    std::array<uint8_t, GAUGE_BLOCK_SIZE> block;

  private:
    std::array<uint8_t, GAUGE_VALUES_SIZE> values{};
    std::array<uint8_t, GAUGE_STATE_SIZE> state{};
};

} // namespace

int main()
{
    static const std::array<uint8_t, GAUGE_BLOCK_SIZE> never_stored{};
    const Message enable_low{0x2F, 0x0E, 0x80, 0x02, 0x01}, low_level{0x23, 0x0E, 0x80, 0x14, 0, 0, 0, 0x3F};
    const Message enable_high{0x2F, 0x0E, 0x80, 0x01, 0x01};
    const Message save{0x23, 0xF2, 0xFB, 0x01, 0x73, 0x61, 0x76, 0x65}, read_level{0x40, 0x0E, 0x80, 0x14};

    Board board(never_stored);
    check(board.say(GAUGE_LINE_TOOL, enable_low) == Message{0x60, 0x0E, 0x80, 0x02}, "low enable");
    check(board.say(GAUGE_LINE_SERVICE, low_level) == Message{0x60, 0x0E, 0x80, 0x14}, "low level");
    check(board.say(GAUGE_LINE_TOOL, enable_high) == Message{0x80, 0x0E, 0x80, 0x01, 0x36, 0x00, 0x09, 0x06}, "a crossed trip point");
    board.sample(0.25f);
    check(board.image() == Image{1, 0, 0, 0x80, 0x3E, 0, 2}, "the image of 0.25, trip point 1 on at its low side");
    check(board.say(GAUGE_LINE_TOOL, save) == Message{0x60, 0xF2, 0xFB, 0x01}, "a store");

    const auto kept = board.block;
    Board again(kept);
    check(again.say(GAUGE_LINE_TOOL, read_level) == Message{0x43, 0x0E, 0x80, 0x14, 0, 0, 0, 0x3F}, "the level behind a power-up");

    Board by_mailbox(kept, GAUGE_FORM_MAILBOX);
    const Mailbox read_card{10, 0, 0x01, 0x10, 0, 0x13, 0, 0x20, 0x40, 0x10, 0x20, 0};
    const Mailbox card{43, 0, 0x01, 0x10, 0, 0x13, 0, 0x30, 0x41, 0x10, 0x20, 0, 33, 0, 0, 0, 0x14, 0, 0, 0, 0, 0, 0, 0, 0, 0xFC};
    check(by_mailbox.post(read_card) == card, "the card in one mailbox");
    check(by_mailbox.say(GAUGE_LINE_SERVICE, read_level) == Message{0x43, 0x0E, 0x80, 0x14, 0, 0, 0, 0x3F}, "line 1 beside it");

    std::printf("C++ test: %u checks, %u failed\n", checks, failures);
    return failures == 0 ? 0 : 1;
}
