// A project of its own in C++: a recording from standard input is read to plain form, played as a live fleet, and listed.
#include <rajvokshul.h>

#include <cstdio>
#include <iostream>
#include <iterator>
#include <stdexcept>
#include <string>
#include <vector>

static void check(uint32_t number) {
    if (number != RAJVOKSHUL_ACCEPTED) {
        throw std::runtime_error("refused " + std::to_string(number) + ": " + rajvokshul_reason(number));
    }
}

static std::string listing(const std::vector<uint8_t> &recording) {
    std::string text(RAJVOKSHUL_MAX_TEXT, '\0');
    size_t written = 0;
    check(rajvokshul_list(recording.data(), recording.size(), reinterpret_cast<uint8_t *>(&text[0]), text.size(), &written));
    text.resize(written);
    return text;
}

static std::vector<uint8_t> played(const std::vector<uint8_t> &recording) {
    std::vector<uint8_t> openings(RAJVOKSHUL_MAX_TRUCKS), record(RAJVOKSHUL_RECORD_SIZE);
    std::vector<uint32_t> words(RAJVOKSHUL_MAX_WORDS);
    uint32_t trucks = 0, rounds = 0;
    check(rajvokshul_read(recording.data(), recording.size(), openings.data(), openings.size(), words.data(), words.size(), &trucks, &rounds));
    check(rajvokshul_start(trucks, openings.data(), trucks, record.data(), record.size()));
    for (uint32_t k = 0; k < rounds; k++) {
        check(rajvokshul_step(record.data(), record.size(), words.data() + rajvokshul_words(trucks, k), 3 + trucks));
    }
    return record;
}

int main() {
    const std::vector<uint8_t> recording{std::istreambuf_iterator<char>(std::cin), std::istreambuf_iterator<char>()};
    try {
        std::cout << listing(recording);
        std::vector<uint8_t> record(RAJVOKSHUL_RECORD_SIZE);
        check(rajvokshul_run(recording.data(), recording.size(), record.data(), record.size()));
        return played(recording) == record ? 0 : 3;
    } catch (const std::runtime_error &refusal) {
        std::cerr << refusal.what() << '\n';
        return 1;
    }
}
