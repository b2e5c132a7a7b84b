// Both headers from C++: what they say of a first use, and of what a refusal leaves, held to functions of every archive.
// Exit status 1, and a line for each, where it is not so.
#include "boherlin.h"
#include "boherlin_whole.h"

#include <cstdio>
#include <cstring>

static int checks, faults;

static void check(bool so, const char *what) {
    checks++;
    if (!so) {
        faults++;
        std::printf("from_cpp: not so: %s\n", what);
    }
}

static bool all_zero(const size_t *numbers, size_t count) {
    for (size_t i = 0; i < count; i++) {
        if (numbers[i] != 0) {
            return false;
        }
    }
    return true;
}

static uint8_t cargo[32762], message[32767];

static void check_receiver() {
    const uint8_t one_byte[] = {0x05, 0x00, 0x02, 0x00, 0x41};
    size_t row[BOHERLIN_RX_ROW] = {0};
    check(boherlin_fresh_receiver(32766, 32, row, BOHERLIN_RX_ROW) == BOHERLIN_OK, "a fresh receiver is made");
    check(boherlin_take(row, BOHERLIN_RX_ROW, one_byte, 5, cargo, sizeof cargo) == BOHERLIN_OK, "P3 is taken");
    check(row[BOHERLIN_RX_KIND] == BOHERLIN_KIND_DELIVERED, "P3 is delivered");
    struct boherlin_part part = {cargo, 0};
    boherlin_delivered(row + BOHERLIN_RX_KIND, cargo, sizeof cargo, &part);
    check(part.begin == cargo && part.length == 1 && cargo[0] == 0x41, "its cargo is the one byte");
    check(boherlin_take(row, BOHERLIN_RX_ROW, one_byte, 5, cargo, sizeof cargo) == BOHERLIN_E_REPEAT, "it comes again");
    check(row[BOHERLIN_RX_REPEATS + 2] == 1, "the repeat is counted");

    size_t before[BOHERLIN_RX_ROW];
    std::memcpy(before, row, sizeof row);
    check(boherlin_take(row, BOHERLIN_RX_ROW - 1, one_byte, 5, cargo, sizeof cargo) == BOHERLIN_E_UNSOUND,
          "a row of another length is 23");
    check(std::memcmp(before, row, sizeof row) == 0, "and nothing changes at all");
    check(boherlin_take(row, BOHERLIN_RX_ROW, one_byte, 3, cargo, sizeof cargo) == BOHERLIN_E_SHORT_TRANSFER,
          "three bytes are refused");
    check(std::memcmp(before, row, BOHERLIN_RX_KIND * sizeof *row) == 0, "a row in range comes back as it was");
    check(row[BOHERLIN_RX_NUMBER] == 2, "but for what was told");
    row[BOHERLIN_RX_EXPECTED] = 300;
    row[BOHERLIN_RX_HEARD] = 7;
    row[BOHERLIN_RX_MISSING] = ((size_t)1 << 32) + 5;
    row[BOHERLIN_RX_CHANNEL] = 9;
    check(boherlin_take(row, BOHERLIN_RX_ROW, one_byte, 3, cargo, sizeof cargo) == BOHERLIN_E_SHORT_TRANSFER,
          "three bytes are refused again");
    check(row[BOHERLIN_RX_EXPECTED] == 44 && row[BOHERLIN_RX_HEARD] == 1 && row[BOHERLIN_RX_MISSING] == 5 &&
              row[BOHERLIN_RX_CHANNEL] == 0,
          "another row comes back reduced");
}

// Document 01's example of the listing.
static void check_listener() {
    const uint8_t input[] = {0x7E, 0x01, 0x06, 0x00, 0x02, 0x00, 0x7D, 0x5E, 0x01, 0x7E, 0x7E, 0x00, 0x7E, 0x7E,
                             0x00, 0x80, 0x00, 0x7E, 0x7E, 0x01, 0x06, 0x00, 0x02, 0x00, 0x7D, 0x5E, 0x01, 0x7E};
    size_t row[BOHERLIN_LISTENER_ROW] = {0};
    boherlin_fresh_receiver(32766, 32, row, BOHERLIN_RX_ROW);
    boherlin_outside(row + BOHERLIN_LISTENER_READER);
    const size_t *reader = row + BOHERLIN_LISTENER_READER, *answer = row + BOHERLIN_RX_KIND;

    auto listen = [&]() {
        return boherlin_listen(row, BOHERLIN_LISTENER_ROW, input, sizeof input, reader[BOHERLIN_READER_NEXT], message,
                               sizeof message, cargo, sizeof cargo);
    };
    check(listen() == BOHERLIN_OK && reader[BOHERLIN_READER_EVENT] == BOHERLIN_EVENT_TRANSFER, "a transfer is heard");
    check(reader[BOHERLIN_READER_VALUE] == 0, "a listener's transfer has the value 0");
    check(row[BOHERLIN_RX_KIND] == BOHERLIN_KIND_DELIVERED && row[BOHERLIN_RX_CARGO_CHANNEL] == 2 &&
              row[BOHERLIN_RX_CARGO_LENGTH] == 2 && cargo[0] == 0x7E && cargo[1] == 0x01,
          "its cargo is told");
    check(listen() == BOHERLIN_OK && reader[BOHERLIN_READER_EVENT] == BOHERLIN_EVENT_QUERY, "then a query");
    check(all_zero(answer, BOHERLIN_ANSWER), "nothing was handed on, and the answer's six numbers are 0");
    check(listen() == BOHERLIN_OK && reader[BOHERLIN_READER_EVENT] == BOHERLIN_EVENT_NOTICE &&
              reader[BOHERLIN_READER_VALUE] == 128,
          "then a notice of 128");
    check(listen() == BOHERLIN_E_REPEAT && reader[BOHERLIN_READER_EVENT] == BOHERLIN_EVENT_TRANSFER &&
              row[BOHERLIN_RX_KIND] == BOHERLIN_KIND_REFUSED,
          "then the first transfer again");
    check(listen() == BOHERLIN_OK && reader[BOHERLIN_READER_EVENT] == BOHERLIN_EVENT_NOTHING &&
              reader[BOHERLIN_READER_NEXT] == sizeof input,
          "then the end");

    size_t tally[BOHERLIN_TALLY] = {0};
    check(boherlin_tally_stream(32766, 32, input, sizeof input, message, sizeof message, cargo, sizeof cargo, tally,
                                BOHERLIN_TALLY) == BOHERLIN_OK,
          "the whole input in one call");
    check(tally[BOHERLIN_TALLY_DELIVERED] == 1 && tally[BOHERLIN_TALLY_QUERIES] == 1 &&
              tally[BOHERLIN_TALLY_NOTICES] == 1 && tally[BOHERLIN_TALLY_REFUSED] == 1 &&
              tally[BOHERLIN_TALLY_BYTES] == 2,
          "it adds up to the same");
}

static void check_unsound_reader() {
    const uint8_t input[] = {0x7E, 0x00, 0x7E};
    size_t row[BOHERLIN_READ_ROW] = {BOHERLIN_PHASE_INSIDE, 9, 0, 0, 0};
    for (size_t from = 0; from <= 4; from++) {
        check(boherlin_read(row, BOHERLIN_READ_ROW, input, 3, from, message, 8) == BOHERLIN_E_UNSOUND,
              from < 3 ? "an unsound reader answers 23" : "also where no byte is left");
        check(row[BOHERLIN_READER_PHASE] == BOHERLIN_PHASE_INSIDE && row[BOHERLIN_READER_HELD] == 9 &&
                  row[BOHERLIN_READER_EVENT] == BOHERLIN_EVENT_REFUSED && row[BOHERLIN_READER_VALUE] == 23,
              "it stays as it is");
        check(row[BOHERLIN_READER_NEXT] == (from < 3 ? from + 1 : from), "its next place");
    }
    row[BOHERLIN_READER_HELD] = 8;
    check(boherlin_read(row, BOHERLIN_READ_ROW, input, 3, 7, message, 8) == BOHERLIN_OK &&
              row[BOHERLIN_READER_NEXT] == 7,
          "a sound one past the end stays there too");
}

static void check_entries() {
    const uint8_t advertisement[] = {0x01, 0x02, 0x11, 0x22, 0x81, 0x01, 0x05, 0x08};
    size_t place = 0, told[BOHERLIN_ENTRY];
    check(boherlin_next_entry(advertisement, 7, &place, told) == BOHERLIN_OK && told[0] == BOHERLIN_ENTRY_HERE &&
              told[1] == 1 && told[2] == 2 && told[3] == 4 && told[4] == BOHERLIN_MARK_KNOWN,
          "an entry");
    check(boherlin_next_entry(advertisement, 7, &place, told) == BOHERLIN_OK && told[4] == BOHERLIN_MARK_OTHER_LENGTH,
          "a timeout of one byte");
    check(boherlin_next_entry(advertisement, 7, &place, told) == BOHERLIN_OK && place == 7 &&
              told[0] == BOHERLIN_ENTRY_NO_MORE && all_zero(told + 1, 4),
          "no more leaves the kind and zeros");
    check(boherlin_entry_at(advertisement, 8, 7, told) == BOHERLIN_E_CUT_ENTRY && told[0] == BOHERLIN_ENTRY_REFUSED &&
              all_zero(told + 1, 4),
          "and so does 34");
    check(boherlin_entry_at(advertisement, 6, 4, told) == BOHERLIN_E_CUT_VALUE && told[0] == BOHERLIN_ENTRY_REFUSED &&
              all_zero(told + 1, 4),
          "and so does 35");

    struct boherlin_index index;
    size_t found[BOHERLIN_FOUND];
    check(boherlin_build_index(advertisement, 7, 0, index.tags, index.places, index.lengths, &index.count,
                               &index.next) == BOHERLIN_OK &&
              index.count == 2,
          "an index of two");
    check(boherlin_find_tag(advertisement, 7, index.tags, index.places, index.lengths, index.count, 0x81, 1, found) ==
                  BOHERLIN_OK &&
              found[0] == BOHERLIN_FOUND_HERE && found[1] == 6 && found[2] == 1,
          "a tag is found");
    check(boherlin_find_tag(advertisement, 7, index.tags, index.places, index.lengths, index.count, 0x81, 2, found) ==
                  BOHERLIN_OK &&
              found[0] == BOHERLIN_FOUND_NONE && all_zero(found + 1, 2),
          "and none leaves the kind and zeros");

    const uint8_t errors[] = {0x01, 0x09};
    size_t code[BOHERLIN_CODE];
    check(boherlin_code_at(errors, 2, 1, code) == BOHERLIN_OK && code[0] == BOHERLIN_CODE_NO_MORE &&
              all_zero(code + 1, 2),
          "no more codes");
    check(boherlin_code_at(errors + 1, 1, 0, code) == BOHERLIN_E_NO_ERROR_LIST && code[0] == BOHERLIN_CODE_REFUSED &&
              all_zero(code + 1, 2),
          "no error list");
}

static void check_odometer() {
    const uint8_t total[] = {1, 5, 0, 0, 0};
    size_t odometer[BOHERLIN_ODOMETER], told[BOHERLIN_HEARD];
    boherlin_fresh_odometer(3, 6400, odometer);
    check(boherlin_hear(odometer, 3, total, 5, told) == BOHERLIN_OK && told[0] == BOHERLIN_OUTCOME_BASE, "a base");
    check(boherlin_hear(odometer, 4, total, 5, told) == BOHERLIN_OK && told[0] == BOHERLIN_OUTCOME_PASSED,
          "another channel is passed over");
    check(boherlin_hear(odometer, 3, total, 4, told) == BOHERLIN_E_NO_TOTAL && told[0] == BOHERLIN_OUTCOME_REFUSED,
          "four bytes are no total");
}

int main() {
    check_receiver();
    check_listener();
    check_unsound_reader();
    check_entries();
    check_odometer();
    if (faults == 0) {
        std::printf("%9d checks from C++: the headers say what is so\n", checks);
    }
    return faults == 0 ? 0 : 1;
}
