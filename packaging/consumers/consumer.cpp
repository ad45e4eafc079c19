// A program of somebody else's, in C++: built by pkg-config in an empty folder, shared and static. It prints what consumer.c does.
#include <stakebook.h>

#include <cstdint>
#include <cstdio>
#include <cstring>
#include <vector>

namespace {

class Book {
public:
    explicit Book(std::size_t room) : xs(room), ys(room), ws(room), sums(STAKEBOOK_SUMS), scratch(room) {
        changed(stakebook_open(sums.data(), sums.size()));
    }

    void add(double x, double y) {
        changed(stakebook_add(count, x, y, 1, xs.data(), xs.size(), ys.data(), ys.size(), ws.data(), ws.size(), sums.data(), sums.size()));
    }

    void fit(std::size_t degree) {
        std::vector<double> coefficients(STAKEBOOK_TERMS);
        const std::uint64_t answer =
            stakebook_fit(count, degree, xs.data(), xs.size(), ys.data(), ys.size(), ws.data(), ws.size(), sums.data(), sums.size(), scratch.data(),
                          scratch.size(), coefficients.data(), coefficients.size());
        if (refused(answer)) return;
        std::printf("fit %u\ncoefficients", stakebook_degree(answer));
        for (std::size_t i = 0; i < 3; i++) {
            unsigned long long bits;
            std::memcpy(&bits, &coefficients[i], sizeof bits);
            std::printf(" %016llX", bits);
        }
        std::printf("\n");
    }

    // bound 1, AIC
    void split(std::size_t limit) {
        const std::vector<std::uint32_t> words = {STAKEBOOK_CUSTOM_DEGREE, 1, STAKEBOOK_AIC};
        const double values[] = {0};
        std::vector<double> before(STAKEBOOK_TERMS), after(STAKEBOOK_TERMS), total(1);
        const std::uint64_t answer =
            stakebook_split(count, words.data(), words.size(), values, 0, limit, xs.data(), xs.size(), ys.data(), ys.size(), ws.data(), ws.size(),
                            sums.data(), sums.size(), scratch.data(), scratch.size(), before.data(), before.size(), after.data(), after.size(),
                            total.data(), total.size());
        if (refused(answer)) return;
        std::printf("split %u %.17g (%lu tests)\n", stakebook_break(answer), total[0], static_cast<unsigned long>(stakebook_tests(answer)));
    }

private:
    static bool refused(std::uint64_t answer) {
        if (stakebook_refusal(answer) != 0) std::printf("refused %u\n", stakebook_refusal(answer));
        return stakebook_refusal(answer) != 0;
    }

    void changed(std::uint64_t answer) {
        if (refused(answer)) return;
        count = stakebook_count(answer);
        std::printf("book %zu\n", count);
    }

    std::vector<double> xs, ys, ws, sums, scratch;
    std::size_t count = 0;
};

} // namespace

int main() {
    Book line(2);
    line.add(0, 1);
    line.add(1, 3);
    line.fit(1);
    line.fit(2);
    const std::vector<double> ys = {0, 1.1, 1.9, 3.05, 2.95, 2.1, .9, .02};
    Book bend(ys.size());
    for (std::size_t i = 0; i < ys.size(); i++) bend.add(static_cast<double>(i), ys[i]);
    bend.split(SIZE_MAX);
    bend.split(30);
    bend.split(29);
}
