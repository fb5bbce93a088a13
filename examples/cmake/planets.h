#ifndef PLANETS_H
#define PLANETS_H

#include <optional>
#include <string>
#include <vector>

struct Planet {
    std::string name;
    double distance;

    double period() const;
};

// All planets that the table names, the nearest one first.
std::vector<Planet> planets();

// The planet of a name.
std::optional<Planet> find_planet(const std::string &name);

#endif
