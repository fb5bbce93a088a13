#include "planets.h"

#include <cmath>
#include <iostream>

namespace {

int failures = 0;

void expect(bool holds, const char *what)
{
    if (!holds) {
        std::cerr << __FILE__ << ": " << what << '\n';
        failures++;
    }
}

}  // namespace

int main()
{
    expect(planets().size() == 6, "six planets");
    expect(planets().front().name == "Mercury", "the nearest planet");
    const auto earth = find_planet("Earth");
    expect(earth && std::abs(earth->period() - 1.0) < 1e-9, "the earth takes a year");
    expect(!find_planet("Moon"), "the moon is no planet");
    if (failures == 0)
        std::cout << "all tests pass\n";
    return failures != 0;
}
