// A program outside the tree, in C++, from the installed files alone: feeds a meter along a script,
// and counts its steps. What is empty is lent as it is: data() of an empty std::vector may be null.
#include <cstdio>
#include <vector>

#include <lawendeb.h>

static lawendeb_run longest(const std::vector<uint32_t> &words,
                            const std::vector<uint8_t> &weights) {
    std::vector<uint8_t> marks(words.size());
    std::vector<uint32_t> lengths(words.size());
    return lawendeb_longest_run(words.data(), words.size(), weights.data(), weights.size(),
                                marks.data(), marks.size(), lengths.data(), lengths.size());
}

int main() {
    const std::vector<uint8_t> weights(LAWENDEB_WEIGHTS, 1);
    // LOADI, ADDI, MMBINI, and a JMP back to the ADDI
    const std::vector<uint32_t> words{2147483649u, 2147483669u, 109051951u, 2147483192u};
    const std::vector<uint32_t> none;
    lawendeb_meters meters{};
    const lawendeb_run run = longest(words, weights);
    std::printf("longest %llu\n", static_cast<unsigned long long>(run.longest));
    for (size_t q : {0, 1, 2, 3, 1}) {
        const lawendeb_answer a =
            lawendeb_feed_four(words.data(), words.size(), weights.data(), weights.size(), &meters,
                               LAWENDEB_DOME, 4, q);
        const lawendeb_steps s = lawendeb_successors(words.data(), words.size(), q);
        std::printf("word %zu: %llu, count %u, steps %llu\n", q,
                    static_cast<unsigned long long>(a.number), meters.of[LAWENDEB_DOME].count,
                    static_cast<unsigned long long>(s.kind - 1));
        if (meters.of[LAWENDEB_DOME].count > run.longest)
            return 1;
    }
    std::printf("no words: %llu\n", static_cast<unsigned long long>(longest(none, weights).number));
    return 0;
}
