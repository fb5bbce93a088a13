#include "planets.h"

#include "orbit.h"

#include <algorithm>

namespace {

const Planet TABLE[] = {
#include "planet_table.h"
};

}  // namespace

double Planet::period() const
{
    return orbit_period(distance);
}

std::vector<Planet> planets()
{
    std::vector<Planet> all(std::begin(TABLE), std::end(TABLE));
    std::sort(all.begin(), all.end(), [](const Planet &a, const Planet &b) { return a.distance < b.distance; });
    return all;
}

std::optional<Planet> find_planet(const std::string &name)
{
    for (const Planet &planet : TABLE) {
        if (planet.name == name)
            return planet;
    }
    return std::nullopt;
}
