// Prints how many years each planet takes.
#include "planets.h"
#include "version.h"

#include <iomanip>
#include <iostream>

// (the compiler warns of the parameter that is never used: a warning comes back with a cached object, too)
int main(int count, char **words)
{
    if (count > 1) {
        std::cout << PLANETS_VERSION << '\n';
        return 0;
    }
    for (const Planet &planet : planets())
        std::cout << std::setw(8) << planet.name << ' ' << std::fixed << std::setprecision(2) << planet.period() << '\n';
}
